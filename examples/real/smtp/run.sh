#!/usr/bin/env bash
# Records good.log and bad.log anew. It needs Debian's package python3-aiosmtpd, and Debian's own Python.
set -eu
here=$(cd "$(dirname "$0")" && pwd)
folder=$(mktemp -d)
running=
trap 'for each in $running; do kill "$each" 2>/dev/null || true; done; rm -rf "$folder"' EXIT
free_port() { python3 -c 'import socket; s = socket.socket(); s.bind(("127.0.0.1", 0)); print(s.getsockname()[1])'; }

begin() { # the log: starts a server, and the proxy before it, which holds the greeting back
  server=$(free_port) port=$(free_port)
  /usr/bin/python3 -m aiosmtpd -n -c aiosmtpd.handlers.Sink -l "127.0.0.1:$server" &
  running=$!
  until (: >"/dev/tcp/127.0.0.1/$server") 2>/dev/null; do sleep 0.1; done
  python3 "$here/../proxy.py" "$port" "$server" --wait 0.3 >"$here/$1" &
  running="$running $!"
  sleep 0.5
}
end() {
  sleep 0.2
  for each in $running; do
    kill "$each"
    wait "$each" || true
  done
  running=
  sed -i "s/$(/usr/bin/python3 -c 'import socket; print(socket.getfqdn())')/mail.example/g" "$here/$1"
}
client() { # the lines that it sends; where it waits for the greeting it waits for each reply
  python3 - "$port" "$@" <<'END'
import socket, sys, time
with socket.create_connection(("127.0.0.1", int(sys.argv[1]))) as link:
    early, *lines = sys.argv[2:]
    if early != "early":
        link.recv(4096)
    for line in lines:
        link.sendall(line.encode().decode("unicode_escape").encode() + b"\r\n")
        link.recv(4096)
        time.sleep(0.05)
END
}

message='Subject: greetings\r\n\r\nhello\r\n.'
begin good.log
client waits 'EHLO one.example' 'MAIL FROM:<a@one.example>' 'RCPT TO:<b@two.example>' 'RCPT TO:<c@two.example>' DATA "$message" QUIT &
one=$!
# This one gets the order wrong, and the server refuses what is out of turn.
client waits 'EHLO three.example' 'RCPT TO:<b@two.example>' 'MAIL FROM:<d@three.example>' DATA 'RCPT TO:<b@two.example>' DATA "$message" QUIT
wait "$one"
end good.log

# A client that says all that it has to say without waiting for the greeting, beside one that waits.
begin bad.log
client waits 'EHLO one.example' 'MAIL FROM:<a@one.example>' 'RCPT TO:<b@two.example>' DATA "$message" QUIT &
one=$!
client early 'EHLO robot.example' 'MAIL FROM:<e@robot.example>' 'RCPT TO:<b@two.example>' DATA "$message" QUIT
wait "$one"
end bad.log
