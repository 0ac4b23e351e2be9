"""Reporters over TLS as `docs/REMOTE.md` has it: its commands and its files, with the addresses of this machine. CSPWATCH names the program."""
import os
import re
import shutil
import socket
import subprocess
import sys
import unittest

sys.path[:0] = [os.path.dirname(os.path.abspath(__file__))]

from watching_folder import CLIENTS, IS_SERVICE, PROGRAM, ROOT, SECONDS, Watching, needs, soon  # noqa: E402

TOOLS = unittest.skipUnless(shutil.which("stunnel4") and shutil.which("openssl"), "stunnel4 isn't installed")
SERVICE = unittest.skipUnless(IS_SERVICE, "the program has no service")
COMPILER = os.environ.get("CC", "cc")
PORTS = ("192.0.2.10:4071", "192.0.2.10:4072", "127.0.0.1:4070")
"""The addresses of the page: that of the pump and that of the valve on the monitor's machine, and the pump's own."""

SOCKET = "/var/lib/cspwatch/shop.socket"


def page():
    with open(os.path.join(ROOT, "docs", "REMOTE.md"), encoding="utf-8") as file:
        return file.read()


def free_port():
    with socket.create_server(("127.0.0.1", 0)) as one:
        return one.getsockname()[1]


@needs()
@TOOLS
@SERVICE
class OverTLS(Watching):
    def setUp(self):
        super().setUp()
        commands = re.search(r"```sh\n(for name .*?)```", page(), re.DOTALL)[1]
        self.assertLessEqual(commands.count("\n"), 10)
        subprocess.run(["sh", "-ec", commands], cwd=self.folder, check=True, stderr=subprocess.DEVNULL, timeout=SECONDS)
        self.ports = {address: "127.0.0.1:%d" % free_port() for address in PORTS}
        self.addresses = [self.ports[address] for address in PORTS]
        for name in ("monitor.conf", "pump.conf"):
            self.write(name, self.config(name).encode())
        words = [PROGRAM, "serve", "p.csp", "P", "j", "--listen", "unix:shop.socket", "--log", "log"]
        run = subprocess.Popen(words, cwd=self.folder, stdout=subprocess.PIPE, stderr=subprocess.DEVNULL)
        self.addCleanup(self.end, run)
        self.assertEqual(run.stdout.readline(), b"listening unix:shop.socket\n")
        self.stunnel("monitor.conf", self.addresses[:2])

    def config(self, name):
        """A file of the page, with addresses of this machine."""
        found = re.search(r"`%s`:\n\n```ini\n(.*?)```" % re.escape(name), page(), re.DOTALL)[1]
        for address, here in self.ports.items():
            found = found.replace(address, here)
        return found.replace(SOCKET, self.path("shop.socket"))

    def stunnel(self, name, addresses):
        """Runs stunnel with a file, until the test ends."""
        with open(self.path(name + ".log"), "ab") as log:
            run = subprocess.Popen(["stunnel4", name], cwd=self.folder, stdin=subprocess.DEVNULL, stdout=subprocess.PIPE, stderr=log)
        self.addCleanup(self.end, run)
        for address in addresses:
            soon(lambda: run.poll() is not None or listens(address), "stunnel at " + address)
        self.assertIsNone(run.poll(), name)
        return run

    def shown(self):
        return subprocess.run([PROGRAM, "show", "j"], cwd=self.folder, stdout=subprocess.PIPE, timeout=SECONDS).stdout.decode().splitlines()

    def asked(self, address, line=b"S\n"):
        """What comes for a line; nothing where the connection ends or fails."""
        host, port = address.rsplit(":", 1)
        try:
            with socket.create_connection((host, int(port)), SECONDS) as link:
                link.sendall(line)
                return link.recv(4096)
        except ConnectionError:
            return b""

    def test_python(self):
        from cspwatch_client import ReconnectingClient

        pump = self.stunnel("pump.conf", self.addresses[2:])
        with ReconnectingClient(self.addresses[2], seat=3, timeout=SECONDS) as client:
            self.assertTrue(client.event("a"))
            self.assertFalse(client.event("a"))
            self.end(pump)
            self.stunnel("pump.conf", self.addresses[2:])
            self.assertTrue(client.event("b"))
            self.assertEqual(client.judged, 3)
        self.assertEqual(self.shown()[:3], ["1 3 1 E a OK", "2 3 2 E a NO expected b", "3 3 3 E b OK"])

    @unittest.skipUnless(shutil.which(COMPILER), "there is no compiler %s" % COMPILER)
    def test_c(self):
        sources = [os.path.join(CLIENTS, "c", name) for name in ("example.c", "cspwatch_client.c")]
        subprocess.run([COMPILER, "-o", self.path("example"), *sources], check=True, timeout=SECONDS)
        self.stunnel("pump.conf", self.addresses[2:])
        done = subprocess.run([self.path("example"), *self.addresses[2].rsplit(":", 1)], stdout=subprocess.PIPE, timeout=SECONDS, check=True)
        self.assertEqual(done.stdout.decode().splitlines(), ["a: accepted, report 1", "b: accepted, report 2", "next: a"])

    def test_who_is_refused(self):
        text = self.config("pump.conf")
        no_certificate = text.replace("cert = pump.pem\nkey = pump.key\n", "")
        another_one = text.replace("pump.pem", "valve.pem").replace("pump.key", "valve.key")
        unknown_monitor = text.replace("CAfile = monitor.pem", "CAfile = valve.pem")
        self.assertEqual(len({text, no_certificate, another_one, unknown_monitor}), 4)
        for refused in (no_certificate, another_one, unknown_monitor):
            self.write("other.conf", refused.encode())
            run = self.stunnel("other.conf", self.addresses[2:])
            self.assertEqual(self.asked(self.addresses[2], b"E a\n"), b"")
            self.end(run)
        # Without TLS too, whatever it sends.
        self.assertNotIn(b"OK", self.asked(self.addresses[0], b"E a\n" * 10))
        self.stunnel("pump.conf", self.addresses[2:])
        self.assertEqual(self.asked(self.addresses[2]), b"S 0 0 0 0 open\n")

    def test_each_certificate_has_its_port(self):
        text = self.config("pump.conf").replace("pump.pem", "valve.pem").replace("pump.key", "valve.key")
        self.write("valve.conf", text.replace(self.addresses[0], self.addresses[1]).encode())
        self.stunnel("valve.conf", self.addresses[2:])
        self.assertEqual(self.asked(self.addresses[2], b"I 4\n"), b"I 4 0\n")


def listens(address):
    host, port = address.rsplit(":", 1)
    with socket.socket() as link:
        return link.connect_ex((host, int(port))) == 0


if __name__ == "__main__":
    unittest.main()
