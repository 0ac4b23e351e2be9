#!/usr/bin/env python3
"""A proxy that writes what two sides say to each other, one line for each piece: the one observer of a server's clients.

    proxy.py PORT SERVER_PORT [--in-turn] [--wait SECONDS] > LOG

A line is `CONNECTION > TEXT` for what a client says, `<` for what the server says, and `open` and `closed`. Line ends are written
as `\\r\\n`. A command of Redis, which is sent as an array, is written as its words. With --in-turn what a client says goes to
the server only once the reply to what any client said before is written. With --wait the server's first word is held back for so
long.
"""
import argparse
import re
import select
import socket
import threading
import time

OUTPUT = threading.Lock()


def text_of(data):
    """A piece as one line."""
    text = data.decode("utf-8", "backslashreplace")
    if re.match(r"\*\d+\r\n\$", text):
        text = " ".join(text.split("\r\n")[2::2])
    return text.rstrip("\r\n").replace("\r", "\\r").replace("\n", "\\n")


def serve(number, client, options, turn):
    def say(*words):
        with OUTPUT:
            print(number, *words, flush=True)

    with client, socket.create_connection(("127.0.0.1", options.server_port)) as server:
        say("open")
        begin = time.monotonic() + options.wait
        while True:
            held = time.monotonic() < begin
            ready = select.select([client] if held else [client, server], [], [], 0.05 if held else None)[0]
            for end in ready:
                other, mark = (server, ">") if end is client else (client, "<")
                with turn:
                    data = end.recv(65536)
                    if not data:
                        say("closed")
                        return
                    say(mark, text_of(data))
                    other.sendall(data)
                    if options.in_turn and end is client:
                        reply = server.recv(65536)
                        say("<", text_of(reply))
                        client.sendall(reply)


def main():
    parser = argparse.ArgumentParser(description=__doc__.split("\n")[0])
    parser.add_argument("port", type=int)
    parser.add_argument("server_port", type=int)
    parser.add_argument("--in-turn", action="store_true")
    parser.add_argument("--wait", type=float, default=0)
    options = parser.parse_args()
    turn = threading.Lock()
    with socket.create_server(("127.0.0.1", options.port)) as listener:
        number = 0
        while True:
            number += 1
            client, _ = listener.accept()
            threading.Thread(target=serve, args=(number, client, options, turn), daemon=True).start()


if __name__ == "__main__":
    main()
