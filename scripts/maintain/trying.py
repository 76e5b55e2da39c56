"""What the scripts share that try the built node: its frames, its processes, and the verdict over their cases.

No case looks at how fast anything is: SECONDS bounds only how long a case waits for what has to come, on a machine however slow.
"""
import os
import re
import resource
import signal
import socket
import struct
import subprocess
import sys
import threading
import time

SECONDS = 120
# A signal that is passed over where a script begins, as of a job in the background, would be by the nodes that it starts, too.
signal.signal(signal.SIGINT, signal.default_int_handler)
for number in (signal.SIGHUP, signal.SIGQUIT, signal.SIGTERM):
    signal.signal(number, signal.SIG_DFL)
ERROR, PING_CODE, GET_CODE, GOT, PUT_CODE, STORED_CODE, DELETE_CODE, DELETED_CODE = 0, 1, 9, 10, 11, 12, 13, 14
NOTHING_FOUND = bytes([GOT])
NO_MEMORY = b"\0\x0a\x09no memory\x10\1"
# how a context begins: its version
CONTEXT_VERSION = 2
CONTEXT_LENGTH = 21


class Wrong(Exception):
    """A case that isn't as it should be, and how."""


def check(holds, *said):
    """Ends the case where something doesn't hold, with what is said of it."""
    if not holds:
        raise Wrong(" ".join(str(it) for it in said))


def varint(number):
    groups = []
    while number > 127:
        groups.append(number & 127 | 128)
        number >>= 7
    return bytes([*groups, number])


def field(number, data):
    """A field of bytes."""
    return varint(number * 8 + 2) + varint(len(data)) + data


def frame(code, body=b""):
    return struct.pack(">IB", len(body) + 1, code) + body


def get(key, bucket=b"b", more=b""):
    return frame(GET_CODE, field(1, bucket) + field(2, key) + more)


def put(key, value, context=b"", bucket=b"b", more=b""):
    seen = field(3, context) if context else b""
    return frame(PUT_CODE, field(1, bucket) + field(2, key) + seen + field(4, field(1, value)) + more)


def delete(key, context=b"", bucket=b"b", more=b""):
    return frame(DELETE_CODE, field(1, bucket) + field(2, key) + (field(4, context) if context else b"") + more)


def shown(values):
    """How the body of a reply to a get begins that has these siblings; a context's field stands behind them."""
    return NOTHING_FOUND + b"".join(field(1, field(1, value)) for value in values)


PING = frame(PING_CODE)
PONG = frame(2)
PUT = put(b"k", b"v")
GET = get(b"k")
STORED = frame(STORED_CODE)
DELETED = frame(DELETED_CODE)
SHOWN = frame(GOT, shown([b"v"])[1:] + field(2, struct.pack(">BQIQ", CONTEXT_VERSION, 0x10000, 1, 1)))
BAD_LENGTH = b"\0\0\0\0"
# how many connections wait at the door of a node that accepts none, as many as are tried where the system allows that
WAIT_AT_DOOR = 400
LOG_LINE = re.compile(rb"\d{4}-\d\d-\d\dT\d\d:\d\d:\d\dZ \[(?:INFO |WARN ) [\w:]+\] [^\r\n]+")
PASSED_OVER = re.compile(rb"\[WARN  riak_node\] (\d+) log lines were passed over: standard error was full")


def dots(reply):
    """The entries of the context at the end of a get's reply, which has one of a single actor: vnode, epoch and counter."""
    check(len(reply) > CONTEXT_LENGTH and reply[-CONTEXT_LENGTH] == CONTEXT_VERSION, "no context in", reply)
    return struct.unpack(">QIQ", reply[1 - CONTEXT_LENGTH :])


def resident(pid):
    """How many KiB a process holds. The sum of its maps is exact, where that of its status is not."""
    folder = f"/proc/{pid}"
    with open(f"{folder}/smaps_rollup" if os.path.exists(f"{folder}/smaps_rollup") else f"{folder}/status") as lines:
        return next(int(line.split()[1]) for line in lines if line.startswith(("Rss:", "VmRSS:")))


class Node:
    """A run of `serve` on a free port, with `--until-eof` where it isn't said otherwise. What it logs is read all the time, so that no line waits for room, unless `errors` is a
    descriptor that it gets for standard error."""

    started = []

    def __init__(self, *options, command=None, before=None, reads_log=True, errors=subprocess.PIPE):
        words = [*(command or [PROGRAM, "serve", "--until-eof", "--port", "0"]), *map(str, options)]
        self.process = subprocess.Popen(words, stdin=subprocess.PIPE, stdout=subprocess.PIPE, stderr=errors, preexec_fn=before)
        Node.started.append(self.process)
        self.log = []
        self.reader = threading.Thread(target=lambda: self.log.extend(self.process.stderr), daemon=True)
        if reads_log and self.process.stderr:
            self.reader.start()
        self.first = self.first_line()
        check(self.first.startswith("listening "), "the node said", repr(self.first), "and not that it listens;", b"".join(self.log))
        self.port = int(self.first.rpartition(":")[2])

    def first_line(self):
        """The line in which it says that it listens."""
        return self.process.stdout.readline().decode().strip()

    def connect(self, address="127.0.0.1"):
        client = socket.create_connection((address, self.port), SECONDS)
        client.setsockopt(socket.IPPROTO_TCP, socket.TCP_NODELAY, 1)
        return client

    def memory(self):
        """How many KiB it holds."""
        return resident(self.process.pid)

    def ended(self):
        """The status and the line of totals, once it has ended by itself; the status of a kill, where it doesn't."""
        kills = threading.Timer(SECONDS, self.process.kill)
        kills.start()
        text = self.process.stdout.read().decode().strip()
        status = self.process.wait(SECONDS)
        kills.cancel()
        if self.reader.ident:
            self.reader.join(SECONDS)
        return status, text

    def totals(self):
        """The line of totals, once standard input was closed, and the status was 0."""
        self.process.stdin.close()
        status, text = self.ended()
        check(status == 0, "the node ended with status", status, "and", text)
        return text

    def logged(self, text):
        """How many lines of the log have this text."""
        return sum(text in line for line in list(self.log))


def connect_and_go(node, count):
    """So many clients come one behind another, are answered, and go."""
    for number in range(count):
        with node.connect() as client:
            check(ask(client, PING, PONG), "client", number, "isn't answered")


def lines_and_passed_over(log):
    """How many lines of connections a log has, each whole, and how many it says that it lacks."""
    lines = re.split(rb"\r?\n", log)
    check(lines.pop() == b"", "the last line of the log isn't whole")
    for line in lines:
        check(LOG_LINE.fullmatch(line), "a line of the log is", line)
    passed_over = [int(found[1]) for line in lines if (found := PASSED_OVER.search(line))]
    return len(lines) - len(passed_over), sum(passed_over)


def limit(kind, most):
    """What a node is to do before it starts so that it has no more than so much."""
    return lambda: resource.setrlimit(kind, (most, most))


def read_all(client):
    """What comes until the connection ends."""
    pieces = []
    while piece := client.recv(1 << 18):
        pieces.append(piece)
    return b"".join(pieces)


def read_exactly(client, length):
    """So many bytes, or fewer where the connection ended."""
    data = b""
    while len(data) < length and (piece := client.recv(length - len(data))):
        data += piece
    return data


def ask(client, request, reply):
    """Whether a request has this reply, a frame. The connection stays."""
    client.sendall(request)
    return read_exactly(client, len(reply)) == reply


def reply_to(client, request):
    """The body of the reply to a request, its code first, or None where the connection ended before it was whole."""
    try:
        client.sendall(request)
        head = read_exactly(client, 4)
        body = read_exactly(client, int.from_bytes(head, "big")) if len(head) == 4 else b""
    except (ConnectionError, BrokenPipeError):
        return None
    return body if len(head) == 4 and len(body) == int.from_bytes(head, "big") else None


def reset(client):
    """Ends a connection by a reset."""
    client.setsockopt(socket.SOL_SOCKET, socket.SO_LINGER, struct.pack("ii", 1, 0))
    client.close()


def come_to_the_door(node, port):
    """The connections of clients that come to a port of a node which is stopped, all of which the system lets wait there."""
    with open("/proc/sys/net/core/somaxconn") as allowed:
        count = min(WAIT_AT_DOOR, int(allowed.read()))
    node.process.send_signal(signal.SIGSTOP)
    clients = []
    for number in range(count):
        try:
            clients.append(socket.create_connection(("127.0.0.1", port), SECONDS / 10))
        except TimeoutError:
            check(False, "only", number, "of", count, "connections wait at the door")
    for client in clients:
        client.settimeout(SECONDS)
    node.process.send_signal(signal.SIGCONT)
    return clients


def until(holds, *said):
    """Waits until something holds, and ends the case where it doesn't come."""
    deadline = time.monotonic() + SECONDS
    while not holds():
        check(time.monotonic() < deadline, *said, f"within {SECONDS} s")
        time.sleep(0.05)


def run_cases(cases):
    """Runs each case, prints a line for each and one of totals, and ends the script: with 1 where a case failed. A case returns what its line adds."""
    began, failed = time.monotonic(), 0
    for name, case in cases.items():
        try:
            told = case()
            said = f"{told}: as it should be" if told else "as it should be"
        except Exception as wrong:
            failed += 1
            said = f"FAILED: {wrong if isinstance(wrong, Wrong) else repr(wrong)}"
        finally:
            for process in Node.started:
                if process.poll() is None:
                    process.kill()
                    process.wait()
            Node.started.clear()
        print(f"{name}: {said}", flush=True)
    script = os.path.basename(sys.argv[0])
    print(f"{script}: {len(cases)} cases, {failed} failed, {time.monotonic() - began:.0f} s", flush=True)
    sys.exit(failed > 0)


def program_to_try():
    """The program that the script was given, or the one that was proved and built here; without it the script ends with 1."""
    here = os.path.dirname(os.path.realpath(__file__))
    program = os.path.realpath(sys.argv[1] if len(sys.argv) > 1 else f"{here}/../../crates/riak_node/out/riak_node")
    if len(sys.argv) > 2 or not os.path.isfile(program) or not os.access(program, os.X_OK):
        script = os.path.basename(sys.argv[0])
        sys.exit(f"{script}: {program} is no program: rt ci leaves the node there, and so does scripts/try-client" if len(sys.argv) < 3 else f"{script} [PROGRAM]")
    return program


PROGRAM = program_to_try()
