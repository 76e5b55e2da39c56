"""What the scripts share that ask a node over its control port: the answer to a command, the numbers of `stats`, and what Linux says of the node's process.

Each question has a connection of its own: the node hears one operator at a time, and others want to be heard between two questions.
"""
import argparse
import dataclasses
import filecmp
import os
import re
import socket
import subprocess
import sys
import time

DEBIANS_PYTHON = "/usr/bin/python3"
# how long an answer may take
SECONDS = 10
# how long a question is asked again while another operator is connected
PATIENCE = 2
# the names of the address at which a node's operators come
HERE = ("127.0.0.1", "localhost")
BUSY = "another operator is connected"
# commands that change nothing
READS = {"help", "stats", "totals", "diverted"}
REFUSED, BAD_LINE, NO_NODE = 1, 2, 3
KINDS = ("ping", "get", "put", "delete", "other")
DONE = ("gets", "puts", "deletes", "refusals", "reaps")
# the texts of error replies, as clients read them
ERRORS = (
    "unknown message code", "bad message", "missing field", "empty name", "key required", "no memory", "match_found", "modified", "notfound", "bad context",
    "too many siblings", "clock full", "epochs used up", "counter used up", "moved", "history full", "bad frame", "frame too large",
)  # fmt: skip
OUT = os.path.join(os.path.dirname(os.path.dirname(os.path.realpath(__file__))), "crates", "riak_node", "out")
# the programs that scripts/serve starts, and whether each is proved
BUILT = (("riak_node", True), ("unproved", False))


class Refused(Exception):
    """The node refused what it was asked, and why."""


class NoNode(Exception):
    """No node answers, and why."""


class Lost(NoNode):
    """The connection ended before the answer: the node has ended, or turned it away and that was lost."""


def use_debians_python():
    """Runs this script again by Debian's Python, unless that runs it already."""
    if os.path.exists(DEBIANS_PYTHON) and sys.executable != DEBIANS_PYTHON:
        os.execv(DEBIANS_PYTHON, [DEBIANS_PYTHON, "-B", *sys.argv])


def number(least, most):
    """The type of an option that takes a number in these bounds."""

    def read(text):
        if text.isdecimal() and least <= int(text) <= most:
            return int(text)
        raise argparse.ArgumentTypeError(f"{text} is no number from {least} to {most}")

    return read


def name_of(error):
    """The name that `stats` gives to the number of replies with this text."""
    return error.replace(" ", "_")


def connect(host, port):
    try:
        return socket.create_connection((host, port), SECONDS)
    except OSError as error:
        raise NoNode(f"no node answers at {host}, port {port}: {error.strerror or error}") from None


def ask_once(host, port, line):
    with connect(host, port) as operator:
        try:
            operator.sendall(f"{line}\n".encode())
            operator.shutdown(socket.SHUT_WR)
            answer = b"".join(iter(lambda: operator.recv(4096), b"")).decode().strip()
        except OSError as error:
            lost = Lost if isinstance(error, ConnectionError) else NoNode
            raise lost(f"no answer at control port {port}: {error.strerror or error}; another operator may be connected") from None
    refusal = answer.removeprefix("refused: ")
    if refusal != answer:
        raise Refused(refusal)
    return answer


def ask_console(host, port, line):
    """The answer to an operator's command. While another operator is connected, it waits a little."""
    deadline = time.monotonic() + PATIENCE
    while True:
        try:
            return ask_once(host, port, line)
        except (Refused, Lost) as error:
            may_ask_again = str(error) == BUSY or isinstance(error, Lost) and line in READS
            if not may_ask_again or time.monotonic() > deadline:
                raise
        time.sleep(0.05)


@dataclasses.dataclass
class Process:
    """What Linux says of a node's process on this machine; None where it can't be seen. `limit_bytes` is None without a limit, too."""

    resident_bytes: int = None
    limit_bytes: int = None
    program: str = None
    version: str = None
    # whether the proof built its program: None for one that scripts/serve of this checkout didn't build
    proved: bool = None


@dataclasses.dataclass
class Stats:
    """The answer to `stats`: numbers by their names, and the same of each worker."""

    numbers: dict
    workers: list

    @classmethod
    def of_line(cls, line):
        """Reads the answer: pairs of a name and a number. `worker` begins those of a worker."""
        words = line.split()
        if len(words) % 2 or not all(map(str.isdecimal, words[1::2])):
            raise NoNode(f"that is no answer to stats: {line[:200]}")
        groups = [{}]
        for name, number in zip(words[::2], words[1::2]):
            if name == "worker":
                groups.append({})
            groups[-1][name] = int(number)
        return cls(groups[0], groups[1:])

    @classmethod
    def ask(cls, host, port):
        answer = ask_console(host, port, "stats")
        if not answer:
            raise NoNode(f"control port {port} ended the connection without an answer")
        return cls.of_line(answer)

    def messages_of(self, kind):
        """How many messages of a kind came."""
        return self.numbers.get(f"{kind}_messages", 0)

    def replies_of(self, error):
        """How many replies were this error."""
        return self.numbers.get(name_of(error), 0)


def socket_at(port):
    """The name that descriptors have of the socket which listens at a port of 127.0.0.1."""
    with open("/proc/net/tcp") as lines:
        for line in lines:
            fields = line.split()
            if fields[1] == f"0100007F:{port:04X}" and fields[3] == "0A":
                return f"socket:[{fields[9]}]"
    return None


def has_descriptor(pid, name):
    try:
        return any(os.readlink(it.path) == name for it in os.scandir(f"/proc/{pid}/fd"))
    except OSError:  # it has ended, or is another user's
        return False


def text_of(path):
    with open(path, errors="replace") as file:
        return file.read()


def start_of(pid):
    """When a process was started, which tells it from a later one of the same number."""
    return text_of(f"/proc/{pid}/stat").rpartition(")")[2].split()[19]


def resident_of(pid):
    """How many bytes of a process are in memory."""
    found = re.search(r"^VmRSS:\s+(\d+) kB", text_of(f"/proc/{pid}/status"), re.M)
    return int(found[1]) << 10 if found else None


def limit_of(pid):
    """How many bytes it may have: the lower of its two limits. scripts/serve --memory sets that of data."""
    limits = re.findall(r"^Max (?:data size|address space)\s+(\d+)", text_of(f"/proc/{pid}/limits"), re.M)
    return min(map(int, limits), default=None)


def version_of(program):
    """What a node's program says of itself. No program of another user is started, but for the system's."""
    if os.stat(program).st_uid not in (0, os.geteuid()):
        return None
    try:
        said = subprocess.run([program, "--version"], stdin=subprocess.DEVNULL, capture_output=True, timeout=SECONDS)
    except (OSError, subprocess.SubprocessError):
        return None
    version = said.stdout.decode(errors="replace").strip()
    return version if version.startswith("riak_node ") else None


def is_proved(program):
    """Whether the proof built a program; None where scripts/serve built neither this one nor one with the same bytes."""
    for name, proved in BUILT:
        built = os.path.join(OUT, name)
        if os.path.exists(built) and filecmp.cmp(program, built, shallow=False):
            return proved
    return None


def pid_at(port):
    """The process of the node with this control port, if this user may see it; None also for a process that only passes the port on."""
    name = socket_at(port)
    found = (it for it in os.listdir("/proc") if it.isdigit() and name and has_descriptor(it, name))
    pid = next(found, None)
    words = text_of(f"/proc/{pid}/cmdline").split("\0") if pid else ()
    return pid if "serve" in words and any(it.startswith("--control-port") for it in words) else None


class Watched:
    """The process of the node that has a control port of this machine, if it is this machine's."""

    def __init__(self, host, port):
        self.port = port if host in HERE else None
        self.pid = self.start = None
        self.said = Process()

    def find(self):
        """Looks for the process, unless it runs still."""
        if self.pid and os.path.exists(f"/proc/{self.pid}") and start_of(self.pid) == self.start:
            return
        self.pid = self.port and pid_at(self.port)
        if self.pid:
            self.start = start_of(self.pid)
            # this file is the program that runs, also if another stands at its path by now
            program = f"/proc/{self.pid}/exe"
            self.said = Process(program=os.readlink(program).removesuffix(" (deleted)"), version=version_of(program), proved=is_proved(program))

    def look(self):
        """What can be seen of it now."""
        try:
            self.find()
            return dataclasses.replace(self.said, resident_bytes=resident_of(self.pid), limit_bytes=limit_of(self.pid)) if self.pid else Process()
        except OSError:
            self.pid = None
            return Process()
