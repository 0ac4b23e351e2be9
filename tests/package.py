#!/usr/bin/env python3
"""The packages for Debian: what they have, and that they can be installed, used and removed.

    tests/package.py [--program FILE]                                  in a folder
    sudo tests/package.py --chroot [--system FOLDER] [--program FILE]   and in a Debian system of its own, under systemd

It makes the packages of the program and of the client for Python, looks at their files, and has `lintian` look at them. The commands
of the client are run from a folder. It installs the package into an empty
folder: as root by dpkg, else its files are put there. There it runs the session of the README and the examples, has systemd look at
the unit, and starts by hand what the unit starts: it reports to it, ends it by SIGTERM, kills it, and starts it again. Then it removes
the package: nothing but journals may be left.

With --chroot it does so too in a plain Debian that `debootstrap` makes; --system names one that is there already, of which a copy is
used. The unit runs there under the system's own systemd in a container (`systemd-nspawn`).

What isn't there is left out, and named. The last line is `N passed, M failed`.
"""
import argparse
import gzip
import os
import re
import shlex
import shutil
import signal
import socket
import subprocess
import sys
import tempfile

import documents
import large

HERE = os.path.dirname(os.path.abspath(__file__))
ROOT = os.path.dirname(HERE)
MAKE = os.path.join(ROOT, "dist", "make_package.py")
UNIT = "lib/systemd/system/cspwatch@.service"
WANTS = "etc/systemd/system/multi-user.target.wants"
EXAMPLES = "usr/share/doc/cspwatch/examples"
SUITE, MIRROR = "bookworm", "http://deb.debian.org/debian"
SECONDS = 600

EXPOSURE = 20
"""How exposed the service may be, in tenths, as `systemd-analyze security` counts it: 100 is bare."""

WANTED = [
    "etc/cspwatch", "usr/bin/cspwatch", "usr/share/man/man1/cspwatch.1.gz", "usr/share/bash-completion/completions/cspwatch",
    "usr/share/zsh/vendor-completions/_cspwatch", "usr/share/fish/vendor_completions.d/cspwatch.fish",
    "usr/share/doc/cspwatch/copyright", "usr/share/doc/cspwatch/changelog.gz", "usr/share/doc/cspwatch/THIRD-PARTY.md.gz",
    "usr/share/doc/cspwatch/README.md", "usr/share/doc/cspwatch/SECURITY.md", EXAMPLES + "/real/sqlite/sqlite.toml", UNIT,
]
"""What has to be there, among others; all pages and examples too."""

CLIENT = "python3-cspwatch"
MODULES = "usr/lib/python3/dist-packages"

SCRIPT = "channel a, b\nP = a -> b -> P\n"

BY_SYSTEMD = r"""#!/bin/bash
# Starts the unit, reports to it, kills it, reports again, and ends it.
ask() { # the lines, and how many replies there are
  exec 3<>/dev/tcp/127.0.0.1/7000 || return
  printf '%b' "$1" >&3
  head -n "$2" <&3
  exec 3>&-
}
listens() { for _ in $(seq 100); do (: <>/dev/tcp/127.0.0.1/7000) 2>/dev/null && return; sleep 0.1; done; echo "nobody listens"; }
mkdir -p /etc/cspwatch
printf 'channel a, b, c\nP = a -> b -> c -> P\n' > /etc/cspwatch/p.csp
printf 'PROCESS='"'"'P \ {| c |}'"'"'\nLISTEN=127.0.0.1:7000\n' > /etc/cspwatch/p.conf
{
  systemctl -q enable cspwatch@p 2>&1
  systemctl start cspwatch@p && listens
  ask 'I 3\nE a\nQ\n' 3
  user=$(stat -c %u "/proc/$(systemctl show -p MainPID --value cspwatch@p)")
  [ "$user" -ge 61184 ] && [ "$user" -le 65519 ] && echo "a user of its own"
  systemctl kill -s KILL cspwatch@p
  sleep 2
  listens
  ask 'I 3\nE b\nE b\nQ\n' 4
  systemctl stop cspwatch@p
  systemctl is-active cspwatch@p
  systemctl show -p Result --value cspwatch@p
  cspwatch replay --read-only /var/lib/private/cspwatch/p.journal
  systemctl start cspwatch@p && listens
  dpkg --purge cspwatch > /dev/null 2>&1 && echo removed
  systemctl is-active cspwatch@p
  journalctl -q -o cat -u cspwatch@p | grep -o '"what":"listening"' | sort -u
} > /srv/said 2>&1
systemctl poweroff
"""

BY_SYSTEMD_SAID = """I 3 0
OK 1
BYE
a user of its own
I 3 1
OK 2
NO 3
BYE
inactive
success
S 3 2 0 1 open
removed
inactive
"what":"listening"
"""
"""What the script above says."""

STARTER = """[Unit]
After=multi-user.target
[Service]
Type=idle
ExecStart=/srv/unit
[Install]
WantedBy=multi-user.target
"""


def output(words, **how):
    """What the command says, with its status where that isn't 0."""
    done = subprocess.run(words, stdin=subprocess.DEVNULL, stdout=subprocess.PIPE, stderr=subprocess.STDOUT, timeout=SECONDS, **how)
    text = done.stdout.decode("utf-8", "replace")
    return text if done.returncode == 0 else "%sstatus %d\n" % (text, done.returncode)


def text_of(*path):
    with open(os.path.join(*path), encoding="utf-8") as file:
        return file.read()


def write(text, *path, mode=0o644):
    with open(os.path.join(*path), "w", encoding="utf-8") as file:
        file.write(text)
    os.chmod(os.path.join(*path), mode)


def files_below(folder):
    """All files and folders that a package may leave, by their names in the system."""
    found = set()
    for place, folders, names in os.walk(folder):
        if place == folder:
            folders[:] = [name for name in folders if name not in ("proc", "sys", "dev", "run", "tmp", "srv")]
        found |= {os.path.relpath(os.path.join(place, name), folder) for name in folders + names}
    return found


class Counter:
    """How many tests passed and failed."""

    def __init__(self):
        self.passed = self.failed = 0

    def check(self, what, is_right, said=""):
        self.passed += bool(is_right)
        self.failed += not is_right
        if not is_right:
            print("failed: %s\n%s" % (what, said))

    def same(self, what, found, wanted):
        self.check(what, found == wanted, "this came:\n%s\nand not:\n%s" % (found, wanted))

    def has(self, name, what):
        """Whether there is such a command; else the test is left out."""
        if shutil.which(name) is None:
            print("left out: %s: there is no %s" % (what, name))
        return shutil.which(name) is not None


# ---- the files


def tracked(place, target):
    """The files that the repository has below a folder, by their names in a package, and whether they can be run."""
    found = {}
    for path in output(["git", "-C", ROOT, "ls-files", place]).splitlines():
        found[os.path.join(target, os.path.relpath(path, place))] = os.access(os.path.join(ROOT, path), os.X_OK)
    return found


def commands():
    """The commands of the client, by what the wheel is built with."""
    text = text_of(ROOT, "clients", "python", "backend", "cspwatch_build.py")
    return sorted(re.findall(r'^    "(cspwatch-\w+)": "', text, re.MULTILINE))


def look_at_client(tests, package, scratch):
    """Looks at the package of the client, and runs its commands from a folder."""
    folder = os.path.join(scratch, "client")
    output(["dpkg-deb", "-x", package, folder])
    files = files_below(folder)
    wanted = set(tracked("clients/python/cspwatch_client", MODULES + "/cspwatch_client"))
    for command in commands():
        wanted |= {"usr/bin/" + command, "usr/share/man/man1/%s.1.gz" % command, "usr/share/bash-completion/completions/" + command}
    wanted |= set(tracked("clients/c", "usr/share/doc/%s/c" % CLIENT))
    tests.same("what the client's package lacks", sorted(wanted - files), [])
    place = dict(os.environ, PYTHONPATH=os.path.join(folder, MODULES), PYTHONDONTWRITEBYTECODE="1")
    for command in commands():
        said = output(["/usr/bin/python3", os.path.join(folder, "usr/bin", command), "--help"], env=place)
        tests.check(command, "usage: " + command in said or "needs" in said, said)
    asked = "import importlib.metadata as m; print([one.name for one in m.entry_points(group='pytest11') if one.value.startswith('cspwatch')])"
    tests.same("the plugin for pytest", output(["/usr/bin/python3", "-c", asked], env=place), "['cspwatch']\n")


def look(tests, package, folder):
    """Looks at the package; its files are below the folder."""
    listed = [line.split(None, 5) for line in output(["dpkg-deb", "-c", package]).splitlines()]
    names = {words[5].rstrip("/")[2:]: words for words in listed}
    own = {**tracked("docs", "usr/share/doc/cspwatch/docs"), **tracked("examples", EXAMPLES), "usr/bin/cspwatch": True}
    tests.same("what is missing", [name for name in [*WANTED, *own] if name not in names], [])
    tests.same("whose the files are", {words[1] for words in listed}, {"root/root"})
    tests.same("when they were changed", len({(words[3], words[4]) for words in listed}), 1)
    runnable = sorted(name for name, words in names.items() if words[0] == "-rwxr-xr-x")
    tests.same("what can be run", runnable, sorted(name for name, can_run in own.items() if can_run))
    tests.same("the rights of the others", {words[0] for words in listed}, {"drwxr-xr-x", "-rwxr-xr-x", "-rw-r--r--"})
    sums = output(["dpkg-deb", "--info", package, "md5sums"])
    write(sums, folder, "sums")
    tests.same("the sums", output(["md5sum", "-c", "--quiet", "sums"], cwd=folder), "")
    os.remove(os.path.join(folder, "sums"))
    for name in sorted(name for name in names if name.endswith(".gz")):
        with open(os.path.join(folder, name), "rb") as file:
            head = file.read(10)
        # No name, no time, and the best that gzip can do.
        tests.same("how %s is compressed" % name, head[:9], b"\x1f\x8b\x08\x00\x00\x00\x00\x00\x02")


def look_at_texts(tests, folder, version):
    """The manual page and the changes name the version, and the licences are there."""
    with gzip.open(os.path.join(folder, "usr/share/man/man1/cspwatch.1.gz"), "rt", encoding="utf-8") as file:
        page = file.read().replace("\\-", "-")
    tests.check("the manual page", ".TH CSPWATCH 1" in page, page[:200])
    with gzip.open(os.path.join(folder, "usr/share/doc/cspwatch/changelog.gz"), "rt", encoding="utf-8") as file:
        tests.check("the changes", file.read().startswith("cspwatch (%s) " % version))
    licence = text_of(folder, "usr/share/doc/cspwatch/copyright")
    tests.check("the licences", "Permission is hereby granted" in licence and "common-licenses/Apache-2.0" in licence, licence)


def look_by_lintian(tests, package):
    if tests.has("lintian", "what lintian says"):
        said = output(["lintian", "--allow-root", "--fail-on", "error,warning", package])
        tests.same("lintian", said, "")


# ---- a session, and the examples


def session_of_the_readme():
    """The commands of the README's first session, of the installed program, and what they print."""
    blocks = documents.blocks_of(text_of(ROOT, "README.md"))
    at = next(at for at, block in enumerate(blocks) if block.kind == "sh")
    return "\n".join(blocks[at].lines).replace("dist/cspwatch", "cspwatch"), blocks[at + 1].lines


def use(tests, run):
    """Uses the program; `run` answers what a script prints in the system where it is installed."""
    commands, shown = session_of_the_readme()
    printed = run('cd "$(mktemp -d)"\n%s\ntest $? = 1' % commands).splitlines()
    tests.check("the session of the README", documents.is_as_shown(printed, shown), "\n".join(printed))
    told = run('cd "$DOCUMENTS/examples"\nfor one in *.reports; do\n'
               '  cspwatch check "${one%.reports}.csp" SYSTEM < "$one" | diff - "${one%.reports}.replies" || echo "$one"\ndone\n'
               './two_components.sh "$(command -v cspwatch)" | diff - two_components.output')
    tests.same("the examples", told, "")


# ---- the unit


def look_at_unit(tests, folder, scratch):
    """What systemd says of the unit, in which the program is that below the folder."""
    if not tests.has("systemd-analyze", "what systemd says of the unit"):
        return
    unit = os.path.join(scratch, "cspwatch@p.service")
    write(text_of(folder, UNIT).replace("/usr/bin/", folder + "/usr/bin/"), unit)
    tests.same("the unit", output(["systemd-analyze", "verify", "--man=no", unit]), "")
    said = output(["systemd-analyze", "security", "--offline=true", "--no-pager", "--threshold=%d" % EXPOSURE, unit])
    tests.check("how exposed the service is", "status" not in said.splitlines()[-1], said)


def started_by(folder, settings):
    """The words that the unit starts for the service `p`, below the folder."""
    (line,) = re.findall(r"^ExecStart=(.*)$", text_of(folder, UNIT), re.MULTILINE)
    words = []
    for word in line.replace("%i", "p").split():
        if word == "$OPTIONS":
            (given,) = re.findall(r'"OPTIONS=(.*?)"', text_of(folder, UNIT))
            words += shlex.split(settings.get("OPTIONS", given))
        elif word.startswith("${"):
            words.append(settings[word[2:-1]])
        else:
            words.append(folder + word if word.startswith("/") else word)
    return words


class Service:
    """What the unit starts, by hand."""

    def __init__(self, folder, settings):
        (place,) = re.findall(r"^WorkingDirectory=(.*)$", text_of(folder, UNIT), re.MULTILINE)
        self.process = subprocess.Popen(
            started_by(folder, settings), cwd=folder + place, stdin=subprocess.DEVNULL, stdout=subprocess.PIPE, stderr=subprocess.PIPE)
        self.first = self.process.stdout.readline().decode("utf-8", "replace").rstrip("\n")

    def ask(self, lines):
        """The replies to these lines."""
        host, _, port = self.first.partition(" ")[2].partition(":")
        with socket.create_connection((host, int(port)), SECONDS) as connection:
            connection.sendall(lines.encode("ascii"))
            return connection.makefile("rb").read().decode("ascii")

    def end(self, number):
        """Ends it by this signal; its status, and what it says on standard error."""
        self.process.send_signal(number)
        _, errors = self.process.communicate(timeout=SECONDS)
        return self.process.returncode, errors.decode("utf-8", "replace")


def run_unit(tests, folder):
    """Starts and ends what the unit starts, with a script, and a process that is no name."""
    if not large.is_known(os.path.join(folder, "usr/bin/cspwatch")):
        print("left out: what the unit starts: the program is no service with --large")
        return
    write(SCRIPT, folder, "etc/cspwatch/p.csp")
    # As systemd makes them for a user who comes and goes.
    os.makedirs(os.path.join(folder, "var/lib/private/cspwatch"))
    os.symlink("private/cspwatch", os.path.join(folder, "var/lib/cspwatch"))
    settings = {"PROCESS": "P [] STOP", "LISTEN": "127.0.0.1:0"}
    service = Service(folder, settings)
    tests.same("a service", service.ask("I 3\nE a\nQ\n"), "I 3 0\nOK 1\nBYE\n")
    status, said = service.end(signal.SIGTERM)
    tests.check("its end", status == -signal.SIGTERM and '"what":"listening"' in said, said)
    service = Service(folder, dict(settings, OPTIONS=""))
    tests.same("a service again", service.ask("I 3\nE b\nE b\nQ\n"), "I 3 1\nOK 2\nNO 3\nBYE\n")
    tests.same("its end by force", service.end(signal.SIGKILL), (-signal.SIGKILL, ""))
    service = Service(folder, settings)
    tests.same("a service once more", service.ask("I 3\nS\nQ\n"), "I 3 3\nS 3 2 0 1 open\nBYE\n")
    service.end(signal.SIGTERM)
    tests.same("a script that is refused", refused_before(folder, settings), "/etc/cspwatch/q.csp:2: 3 expected")
    words = [os.path.join(folder, "usr/bin/cspwatch"), "replay", "--read-only", os.path.join(folder, "var/lib/private/cspwatch/p.journal")]
    tests.same("the journal", output(words), "S 3 2 0 1 open\nstatus 1\n")


def refused_before(folder, settings):
    """What is said, before a service is begun, of a script that doesn't read."""
    (line,) = re.findall(r"^ExecStartPre=/bin/sh -c '(.*)'$", text_of(folder, UNIT), re.MULTILINE)
    write("channel a\nP = = STOP\n", folder, "etc/cspwatch/q.csp")
    command = line.replace("$$", "$").replace("%i", "q").replace("/usr/", folder + "/usr/").replace("/etc/", folder + "/etc/")
    said = output(["sh", "-c", command], env=dict(os.environ, PROCESS=settings["PROCESS"]))
    os.remove(os.path.join(folder, "etc/cspwatch/q.csp"))
    return said.splitlines()[0].replace(folder, "")


# ---- in a folder


def dpkg(folder, *words):
    """What dpkg says of the system below the folder, which has nothing but the package."""
    force = ["--force-script-chrootless", "--force-depends"]
    return output(["dpkg", "--root=" + folder, "--log=/dev/null"] + force + list(words))


def use_in_folder(tests, package, scratch):
    """Installs the package below a folder, uses it there, and removes it."""
    folder, is_root = os.path.join(scratch, "folder"), os.geteuid() == 0
    for name in ("info", "updates", "triggers"):
        os.makedirs(os.path.join(folder, "var/lib/dpkg", name))
    write("", folder, "var/lib/dpkg/status")
    os.makedirs(os.path.join(folder, WANTS))
    before = files_below(folder)
    said = dpkg(folder, "-i", package) if is_root else output(["dpkg-deb", "-x", package, folder])
    tests.check("installing", "\nstatus " not in "\n" + said, said)
    version = re.search(r"_(.*)_", os.path.basename(package))[1]
    look(tests, package, folder)
    look_at_texts(tests, folder, version)
    place = dict(os.environ, PATH="%s/usr/bin:%s" % (folder, os.environ["PATH"]), DOCUMENTS=folder + "/usr/share/doc/cspwatch")
    use(tests, lambda script: output(["bash", "-c", script], env=place))
    look_at_unit(tests, folder, scratch)
    run_unit(tests, folder)
    if not is_root:
        print("left out: removing: this needs root")
        return
    write("", folder, "etc/cspwatch/q.conf")
    os.symlink("/" + UNIT, os.path.join(folder, WANTS, "cspwatch@p.service"))
    said = dpkg(folder, "--purge", "cspwatch")
    tests.check("removing", "\nstatus " not in "\n" + said, said)
    look_at_rest(tests, folder, before)


def look_at_rest(tests, system, before):
    """After the removal nothing is left but journals, and what somebody wrote to /etc."""
    left = files_below(system) - before
    journals = {name for name in left if re.fullmatch(r"var/lib(/private)?/cspwatch(/.*\.journal(\.\d+)?)?", name)}
    written = {name for name in left if name.startswith("etc/cspwatch/") or name.endswith("starter.service")}
    of_others = {name for name in left if name.startswith(("var/lib/dpkg", "var/log", "var/cache", "var/lib/systemd", "etc/machine-id"))}
    kept = journals | written | of_others
    tests.same("what is left", sorted(name for name in left - kept if not any(one.startswith(name + "/") for one in kept)), [])
    tests.check("the journals are left", not os.path.exists(os.path.join(system, "etc/cspwatch/p.csp")) or journals, sorted(left))


# ---- in a Debian system of its own


def use_in_system(tests, package, scratch, given):
    """Installs the package into a Debian system, uses it there, also under systemd, and removes it."""
    if os.geteuid() != 0 or not (given or tests.has("debootstrap", "a Debian system")):
        print("left out: a Debian system: this needs root, and debootstrap or a system")
        return
    system = os.path.join(scratch, "system")
    if given:
        output(["cp", "-a", given, system])
    else:
        said = output(["debootstrap", "--variant=minbase", "--include=systemd,systemd-sysv,dbus", SUITE, system, MIRROR])
        if not os.path.isdir(os.path.join(system, "usr/bin")):
            print("left out: a Debian system: debootstrap says\n%s" % said)
            return
    before = files_below(system)
    shutil.copy(package, os.path.join(system, "tmp", "cspwatch.deb"))
    said = output(["chroot", system, "dpkg", "-i", "/tmp/cspwatch.deb"])
    tests.check("installing into the system", "\nstatus " not in "\n" + said, said)
    use(tests, lambda script: output(["chroot", system, "bash", "-c", "DOCUMENTS=/usr/share/doc/cspwatch\n" + script]))
    run_by_systemd(tests, system)
    said = output(["chroot", system, "dpkg", "--purge", "cspwatch"])
    tests.check("removing from the system", "\nstatus " not in "\n" + said, said)
    look_at_rest(tests, system, before)


def run_by_systemd(tests, system):
    """Runs the unit under the system's own systemd. There the package is removed while a service runs."""
    if not tests.has("systemd-nspawn", "the unit under systemd"):
        return
    if not large.is_known(os.path.join(system, "usr/bin/cspwatch")):
        print("left out: the unit under systemd: the program is no service with --large")
        return
    write(BY_SYSTEMD, system, "srv/unit", mode=0o755)
    write(STARTER, system, "etc/systemd/system/starter.service")
    output(["chroot", system, "systemctl", "enable", "starter.service"])
    output(["systemd-nspawn", "--register=no", "--keep-unit", "--private-network", "-q", "-b", "-D", system])
    output(["chroot", system, "systemctl", "disable", "starter.service"])
    said = os.path.join(system, "srv/said")
    tests.same("the unit under systemd", text_of(said) if os.path.exists(said) else "it didn't run", BY_SYSTEMD_SAID)


def make(tests, program, folder):
    """Makes the packages, twice; None where that can't be done."""
    made = []
    for name in ("one", "two"):
        os.mkdir(os.path.join(folder, name))
        said = output([sys.executable, MAKE, "--program", program, "--output", os.path.join(folder, name)]).splitlines()
        tests.check("making the packages", len(said) == 2 and all(os.path.isfile(path) for path in said), said)
        made.append(said)
    if not all(os.path.isfile(path) for paths in made for path in paths):
        return None
    contents = []
    for path in [path for paths in made for path in paths]:
        with open(path, "rb") as file:
            contents.append(file.read())
    tests.check("the same bytes each time", contents[:2] == contents[2:])
    return made[0]


def main():
    parser = argparse.ArgumentParser(description=__doc__.split("\n")[0])
    parser.add_argument("--program", default=os.path.join(ROOT, "crates", "cspwatch", "out", "cspwatch"), help="the program")
    parser.add_argument("--chroot", action="store_true", help="also in a Debian system of its own")
    parser.add_argument("--system", help="a Debian system with systemd; a copy of it is used")
    options = parser.parse_args()
    tests = Counter()
    if tests.has("dpkg-deb", "the package") and tests.has("objdump", "the package"):
        with tempfile.TemporaryDirectory(prefix="package-") as scratch:
            packages = make(tests, os.path.abspath(options.program), scratch)
            if packages is not None:
                package, client = packages
                look_by_lintian(tests, package)
                look_by_lintian(tests, client)
                look_at_client(tests, client, scratch)
                use_in_folder(tests, package, scratch)
                if options.chroot or options.system:
                    use_in_system(tests, package, scratch, options.system)
    print("%d passed, %d failed" % (tests.passed, tests.failed))
    return 1 if tests.failed else 0


if __name__ == "__main__":
    sys.exit(main())
