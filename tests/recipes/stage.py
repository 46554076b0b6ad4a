"""stage.py - what tests/recipes/try needs: the recipes of the pages, receivers that it is itself, and terminals to type in."""
import contextlib
import itertools
import os
import pathlib
import pty
import re
import select
import shutil
import signal
import socket
import subprocess
import sys
import termios
import threading
import time

TOP = pathlib.Path(__file__).resolve().parent.parent.parent
sys.path.insert(0, str(TOP / "bench"))
import make_stream  # noqa: E402, F401

PAGES = [TOP / "README.md", TOP / "docs/USING.md"]
PROSE = " ".join(" ".join(page.read_text() for page in PAGES).split())
PATIENCE = 15  # seconds for what comes at once where a machine does nothing else
DEADLINE = time.monotonic() + 55  # by then everything has come, or never does


def recipes():
    """Each command of the `sh` blocks of the pages. A line that is indented goes on with the one before."""
    blocks = "".join(block for page in PAGES for block in re.findall(r"^```sh\n(.*?)^```$", page.read_text(), re.M | re.S))
    return list(dict.fromkeys(it.rstrip("\n") for it in re.findall(r"^\S.*\n(?:\s+\S.*\n)*", blocks, re.M)))


def head_of(example):
    """The commands in the first comment of an example."""
    lines = itertools.takewhile(lambda it: it.startswith("#"), (TOP / "examples" / example).read_text().splitlines())
    return re.findall(r"^\S.*(?:\n\s+\S.*)*", "\n".join(it[6:] for it in lines if it.startswith("#     ")), re.M)


class Receiver:
    """Serves lines at a port of 127.0.0.1 as readsb does: one that closes its end of a connection gets nothing more."""

    def __init__(self, script):
        """A script says for each connection, by its number, what it gets: texts, and between them seconds to wait."""
        self.script, self.connections = script, 0
        self.listener = socket.create_server(("127.0.0.1", 0))
        self.port = self.listener.getsockname()[1]
        threading.Thread(target=self.serve, daemon=True).start()

    def serve(self):
        while True:
            connection = self.listener.accept()[0]
            threading.Thread(target=self.give, args=(connection, self.connections), daemon=True).start()
            self.connections += 1

    def give(self, connection, number):
        with connection, contextlib.suppress(OSError):
            for step in self.script(number):
                if not isinstance(step, str):
                    time.sleep(step)
                elif not select.select([connection], [], [], 0)[0]:
                    connection.sendall(step.encode())


def steady(*frames, every=0.3):
    """A script: the same lines for ever."""
    text = "".join("*%s;\n" % it for it in frames)
    return lambda number: itertools.cycle((text, every))


def in_turn(*steps):
    """A script: these frames and waits, and then silence."""
    return lambda number: [it if isinstance(it, (int, float)) else "*%s;\n" % it for it in steps] + [1000]


def has_terminals():
    """Whether there is a loopback interface, and a terminal can be opened."""
    try:
        with socket.create_server(("127.0.0.1", 0)) as it, socket.create_connection(it.getsockname()):
            for end in pty.openpty():
                os.close(end)
    except OSError:
        return False
    return True


def is_there(tool):
    """Whether a tool is installed, or a path is there. `nc` must be OpenBSD's."""
    if tool == "nc" and shutil.which("nc"):
        return "OpenBSD" in subprocess.run(["nc", "-h"], stderr=subprocess.PIPE, stdin=subprocess.DEVNULL, text=True).stderr
    return bool(shutil.which(tool)) or pathlib.Path("/", tool).exists()


def free_port():
    with socket.create_server(("127.0.0.1", 0)) as it:
        return it.getsockname()[1]


class Terminal:
    """A shell in a terminal of its own."""

    def __init__(self, folder, shell=("bash", "--norc", "--noprofile", "--noediting", "-i")):
        self.master, slave = pty.openpty()
        settings = termios.tcgetattr(slave)
        settings[1] &= ~termios.OPOST
        settings[3] &= ~termios.ECHO
        termios.tcsetattr(slave, termios.TCSANOW, settings)
        self.shell = subprocess.Popen(["setsid", "--ctty", *shell], stdin=slave, stdout=slave, stderr=slave, cwd=folder,
                                      env=dict(os.environ, PS1="", PS2="", ENV="", HISTFILE=""))
        os.close(slave)
        self.text, self.mark = "", 0
        threading.Thread(target=self.keep, daemon=True).start()

    def keep(self):
        with contextlib.suppress(OSError):
            for piece in iter(lambda: os.read(self.master, 1 << 16), b""):
                self.text += piece.decode(errors="replace")

    def said(self):
        """What was printed since the last command."""
        return self.text[self.mark:]

    def type(self, command):
        self.mark = len(self.text)
        os.write(self.master, command.encode() + b"\n")

    def interrupt(self):
        """Ctrl-C."""
        os.write(self.master, b"\x03")
        time.sleep(0.2)

    def waits(self, pattern, count=1, seconds=PATIENCE):
        """Whether so many lines with a pattern are printed in time."""
        return comes(lambda: len(re.findall(pattern, self.said(), re.M)) >= count, seconds)

    def is_over(self, seconds=PATIENCE):
        """Whether the command ends, so that the shell takes the next one. Keeps what the command printed."""
        os.write(self.master, b"echo prompt$((1))\n")
        over = self.waits("prompt1", 1, seconds)
        self.text = self.text.replace("prompt1\n", "")
        return over

    def close(self):
        """Ends all that was begun here."""
        with contextlib.suppress(OSError):
            for process in self.processes():
                os.kill(process, signal.SIGKILL)
        self.shell.wait()

    def processes(self):
        """The processes of this terminal."""
        for stat in pathlib.Path("/proc").glob("[0-9]*/stat"):
            with contextlib.suppress(OSError):
                if int(stat.read_text().rpartition(")")[2].split()[3]) == self.shell.pid:
                    yield int(stat.parent.name)


class Service:
    """A command without a terminal, with all that it starts."""

    def __init__(self, command, **environment):
        self.begun = time.monotonic()
        self.leader = subprocess.Popen(command, env=dict(os.environ, **environment), stdin=subprocess.DEVNULL,
                                       stdout=subprocess.DEVNULL, stderr=subprocess.DEVNULL, start_new_session=True)

    def ends_by(self):
        """Its status once it ends, and for how many seconds it ran."""
        return self.leader.wait(PATIENCE), time.monotonic() - self.begun

    def close(self):
        with contextlib.suppress(ProcessLookupError):
            os.killpg(self.leader.pid, signal.SIGKILL)
        self.leader.wait()


def comes(holds, seconds=PATIENCE):
    """Whether something holds in time."""
    ends = min(time.monotonic() + seconds, DEADLINE)
    while not holds():
        if time.monotonic() > ends:
            return False
        time.sleep(0.05)
    return True


def tables(text):
    """The tables of a text: of each its lines. The last one may be cut off."""
    found = []
    for line in text.splitlines():
        if line.startswith("now "):
            found.append([])
        if found and re.match(r"now |  ADDR|[0-9A-F]{6} ", line):
            found[-1].append(line)
    return [it for it in found if len(it) == 2 + int(it[0].split()[3])]
