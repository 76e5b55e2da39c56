"""Times `riak_node steps` by the number of calls. See README.md."""
import subprocess
import sys
import time

sys.path.append(f"{sys.path[0]}/..")
from asking import PROGRAM, context
from trying import delete as delete_named
from trying import get as get_named
from trying import put as put_named

CALLS = 4500
TIMES = 4
ROUNDS = 3


def name(key):
    return b"key%d" % key


def as_call(request):
    """A request's code and body, without its length, as a line of a schedule has it."""
    return request[4:]


def get(key):
    return as_call(get_named(name(key)))


def put(key, value, seen=b""):
    return as_call(put_named(name(key), value, seen))


def delete(key):
    return as_call(delete_named(name(key)))


def replacing(key, epoch, count):
    """The calls of a key's put of this number: one that nobody saw first, each other by what a get showed."""
    if count == 1:
        return [put(key, b"v")]
    return [get(key), put(key, b"v", context(epoch, count - 1))]


def one_key(calls):
    return [call for count in range(calls // 2) for call in replacing(0, 1, count + 1)]


def many_keys(calls):
    return [put(key, b"v") for key in range(calls)]


def hundred_keys(calls):
    return [call for index in range(calls // 2) for call in replacing(index % 100, index % 100 + 1, index // 100 + 1)]


def siblings(calls):
    return [delete(0) if index % 60 == 59 else put(0, b"v") for index in range(calls)]


def gets(calls):
    return [put(key, b"v") for key in range(100)] + [get(index % 100) for index in range(calls)]


KINDS = {
    "one key, each put by the context that a get showed": one_key,
    "100 keys, likewise": hundred_keys,
    "a new key a put": many_keys,
    "puts on one key without a context, and a delete where 59 siblings stand": siblings,
    "gets of 100 keys": gets,
}


def lines(calls):
    """The schedule in which one worker makes these calls."""
    out = []
    for call in calls:
        out.append("ask 1 " + call.hex())
        out += ["enter 1", "look 1", "leave 1"] if call[0] == 9 else ["take 1", "look 1", "publish 1", "put 1"]
    return "".join(line + "\n" for line in out).encode()


def seconds(schedule):
    """The seconds of the fastest of some rounds. The register that keeps every event has to agree."""
    fastest = None
    for _ in range(ROUNDS):
        began = time.perf_counter()
        played = subprocess.run([PROGRAM, "steps", "--workers", "1"], input=schedule, capture_output=True, check=True)
        took = time.perf_counter() - began
        if played.stdout.splitlines()[-1] != b"plain equal":
            sys.exit("the schedule's last line is " + played.stdout.splitlines()[-1].decode())
        fastest = took if fastest is None else min(fastest, took)
    return fastest


def main():
    for kind, calls in KINDS.items():
        short = seconds(lines(calls(CALLS)))
        long = seconds(lines(calls(TIMES * CALLS)))
        print(f"{kind}: {CALLS} calls {short:.2f} s, {TIMES * CALLS} calls {long:.2f} s, {long / short:.1f} times", flush=True)


main()
