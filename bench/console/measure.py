"""What an operator's commands take, and what requests take meanwhile. See README.md."""

import os
import statistics
import subprocess
import sys
import time

sys.path.append(f"{sys.path[0]}/..")
import asking  # noqa: F401, for the path to what the scripts share
from trying import PING, PONG, PROGRAM, STORED, Node, ask, check, put, read_exactly

WORKERS = int(os.environ.get("WORKERS", "4"))
KEYS = int(os.environ.get("KEYS", "100000"))
BUDGET = int(os.environ.get("BUDGET", "1000"))
SECONDS_EACH = float(os.environ.get("SECONDS_EACH", "4"))
PARTS = os.environ.get("PARTS", "idle busy copies counts").split()
MANY = os.environ["MANY"]
RING = 64
VALUE = bytes(100)


class Console(Node):
    """A run of `serve --control`."""

    def __init__(self, ring):
        super().__init__("--workers", WORKERS, "--ring", ring, command=[PROGRAM, "serve", "--control", "--port", "0"])

    def say(self, line):
        """The answer to a line, and how many milliseconds it took."""
        began = time.monotonic()
        self.process.stdin.write(f"{line}\n".encode())
        self.process.stdin.flush()
        answer = self.process.stdout.readline().decode().rstrip()
        return answer, 1000 * (time.monotonic() - began)

    def take(self, line, answer=""):
        said, took = self.say(line)
        check(said.startswith(answer), line, "is answered", said)
        return took

    def end(self):
        self.process.stdin.write(b"stop\n")
        self.process.stdin.close()
        return self.ended()

    def load(self, operation, busy, idle):
        """`many.c` for some seconds: requests a second, and median, 99th and 99.9th percentile in microseconds, once it has ended."""
        words = [MANY, "riak", self.port, self.process.pid, operation, busy, idle, 1, SECONDS_EACH]
        return subprocess.Popen([*map(str, words)], stdout=subprocess.PIPE)


def told(load):
    """Requests a second, the median, the 99th and the 99.9th percentile, and errors."""
    words = load.communicate()[0].split()
    check(load.returncode == 0, "the load failed")
    return words[0], *words[2:5], words[6]


def spread(took):
    took = sorted(took)
    return f"{statistics.median(took):9.2f} {took[-1]:9.2f}"


def row(what, command, took, load):
    cells = " ".join(f"{int(it):9,}" for it in load) if load else ""
    print(f"{what:34} {command:8} {len(took):5} {spread(took) if took else '        -         -'} {cells}", flush=True)


def pauses(operation, busy, idle, commands):
    """Diversions of all partitions in turn, and as many totals, while so many connections are busy and others idle."""
    node = Console(RING)
    quiet = [node.connect() for _ in range(0 if busy else idle)]
    check(all(ask(client, PING, PONG) for client in quiet), "a ping isn't answered")
    load = node.load(operation, busy, idle) if busy else None
    if busy:
        time.sleep(0.5 + idle / 2000)
    took = {command: [] for command in commands}
    for number in range(RING if commands else 0):
        for command in commands:
            line = "totals" if command == "totals" else f"divert {number}"
            took[command].append(node.take(line, "gets" if command == "totals" else f"diverted {number}"))
        time.sleep((SECONDS_EACH - 1) / RING / 2 if busy else 0.002)
    result = told(load) if load else None
    what = f"{operation}s, {busy:,} busy, {idle:,} idle"
    for command in commands or ("-",):
        row(what, command, took.get(command, []), result)
    node.end()


def fill(node, count, first=0):
    """Puts so many keys, values of 100 bytes, without context."""
    with node.connect() as client:
        for at in range(first, first + count, 500):
            client.sendall(b"".join(put(b"%08d" % number, VALUE) for number in range(at, min(at + 500, first + count))))
            replies = STORED * (min(at + 500, first + count) - at)
            check(read_exactly(client, len(replies)) == replies, "a put isn't answered")


def copies(budget):
    """A partition with as many keys at its primary and, new ones of them, at its fallback, is copied back by this budget and returned."""
    node = Console(1)
    fill(node, KEYS)
    node.take("divert 0", "diverted")
    fill(node, KEYS)
    load = node.load("get", 64, 0)
    time.sleep(0.5)
    took, words = [], [""] * 5
    began = time.monotonic()
    while words[4] != "whole":
        answer, each = node.say(f"copy 0 {budget}")
        words = answer.split()
        check(words[0] == "copied", answer)
        took.append(each)
    whole = time.monotonic() - began
    returned = node.take("return 0", "returned 0")
    result = told(load)
    row(f"{KEYS:,} keys, {budget:,} a copy, 64 busy", "copy", took, result)
    print(f"{'':34} {'all':8} {whole * 1000:15.0f} ms; return {returned:.1f} ms", flush=True)
    node.end()


def counts(ring, operation):
    """`totals` again and again on a node of so many partitions that stores many keys, while 64 connections are busy."""
    node = Console(ring)
    fill(node, KEYS)
    for commands in ((), ("totals",)):
        load = node.load(operation, 64, 0)
        time.sleep(0.5)
        took = []
        for _ in range(20 if commands else 0):
            took.append(node.take("totals", "gets"))
            time.sleep((SECONDS_EACH - 1) / 40)
        row(f"{KEYS:,} keys, ring {ring}, 64 {operation}", "totals" if commands else "-", took, told(load))
    node.end()


print(f"{'':34} {'command':8} {'times':>5} {'median ms':>9} {'longest':>9} {'req/s':>9} {'median us':>9} {'99th':>9} {'99.9th':>9} {'errors':>9}")
if "idle" in PARTS:
    for idle in (0, 1_000, 10_000):
        pauses("get", 0, idle, ("divert", "totals"))
if "busy" in PARTS:
    for operation in ("get", "put"):
        for idle in (0, 1_000):
            pauses(operation, 64, idle, ())
            pauses(operation, 64, idle, ("divert", "totals"))
if "copies" in PARTS:
    for budget in (KEYS, BUDGET):
        copies(budget)
if "counts" in PARTS:
    for ring in (1, RING):
        for operation in ("get", "put"):
            counts(ring, operation)
