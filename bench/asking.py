"""What the benchmarks share: frames (most of scripts/maintain/trying.py) and contexts, a `pipe` with its time and memory, and counts of instructions."""
import os
import random
import re
import struct
import subprocess
import sys
import threading
import time

sys.path.append(f"{os.path.dirname(os.path.realpath(__file__))}/../scripts/maintain")
from trying import CONTEXT_VERSION, PROGRAM, PUT_CODE, field, frame, resident

# How many requests are written at once, and how many bytes of replies are read at once.
CHUNK, PIECE = 500, 1 << 16
FIRST_VNODE = 65536
PIPE = [PROGRAM, "pipe", "--ring", "1"]


def context(epoch, counter, vnode=FIRST_VNODE):
    """A context of one actor. On a ring of one a key's actor has the number of its first put for its epoch."""
    return struct.pack(">BQIQ", CONTEXT_VERSION, vnode, epoch, counter)


def put_content(key, content, seen=b"", bucket=b"b"):
    """A put of a content as its fields, of whatever it is made."""
    return frame(PUT_CODE, field(1, bucket) + field(2, key) + (field(3, seen) if seen else b"") + field(4, content))


def shuffled(keys):
    """The numbers of these keys in a random order, the same each time."""
    return random.Random(1).sample(keys, len(keys))


class Node:
    """A running `pipe` with one vnode, whose input is fed by a thread and whose replies are read beside it."""

    def __init__(self, *options, **environment):
        self.process = subprocess.Popen(
            [*PIPE, *options],
            stdin=subprocess.PIPE,
            stdout=subprocess.PIPE,
            env={**os.environ, **environment},
        )

    def processor(self):
        """Nanoseconds that it has run on a processor."""
        with open(f"/proc/{self.process.pid}/schedstat") as file:
            return int(file.read().split()[0])

    def peak(self):
        """Peak resident bytes."""
        with open(f"/proc/{self.process.pid}/status") as file:
            return next(int(line.split()[1]) * 1024 for line in file if line.startswith("VmHWM:"))

    def resident(self):
        """Resident bytes."""
        return resident(self.process.pid) * 1024

    def read(self, length):
        """So many bytes of its replies."""
        data = self.process.stdout.read(length)
        assert len(data) == length, "the node ended"
        return data

    def read_frame(self):
        header = self.read(4)
        return header + self.read(int.from_bytes(header, "big"))

    def feeder(self, requests):
        """A thread that writes the requests."""
        thread = threading.Thread(target=self.feed, args=(requests,))
        thread.start()
        return thread

    def feed(self, requests):
        for at in range(0, len(requests), CHUNK):
            self.process.stdin.write(b"".join(requests[at : at + CHUNK]))
        self.process.stdin.flush()

    def ask(self, requests, reply=None):
        """Nanoseconds of the node for the requests, and what it replied to the first: this to each of them, or as many bytes."""
        before = self.processor()
        feeder = self.feeder(requests)
        first = self.read(len(reply)) if reply else self.read_frame()
        assert reply in (None, first), first
        left = len(first) * (len(requests) - 1)
        most = len(first) * max(1, PIECE // len(first))
        while left:
            got = self.read(min(left, most))
            assert reply is None or got == reply * (len(got) // len(reply)), "a refusal"
            left -= len(got)
        feeder.join()
        return self.processor() - before, first

    def replies(self, requests, wait=0.0):
        """The code and the body of each reply; where it is to wait, none is read before so many seconds have passed."""
        feeder = self.feeder(requests)
        time.sleep(wait)
        frames = [self.read_frame() for _ in requests]
        feeder.join()
        return [(frame[4], frame[5:]) for frame in frames]

    def end(self):
        self.process.stdin.close()
        assert self.process.wait() == 0


def counted(command, requests):
    """The user instructions of a run, by `callgrind`, and its replies."""
    valgrind = ["valgrind", "--tool=callgrind", "--callgrind-out-file=/dev/null"]
    run = subprocess.run(valgrind + command, input=b"".join(requests), capture_output=True, check=True)
    return int(re.search(rb"Collected : (\d+)", run.stderr)[1]), run.stdout


def instructions_each(command, requests, short, long):
    """The instructions of one request, by the difference of two runs with so many, and the replies of the longer one."""
    few, _ = counted(command, requests(short))
    many, replies = counted(command, requests(long))
    return (many - few) / (long - short), replies
