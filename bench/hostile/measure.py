"""What the worst request of each kind costs beside a plain one of the same bytes. See README.md."""

import os
import struct
import sys

sys.path.append(f"{sys.path[0]}/..")
from asking import Node, put_content
from trying import DELETED_CODE as DELETE_DONE
from trying import ERROR, PING, field, varint
from trying import GOT as FOUND
from trying import STORED_CODE as PUT_DONE
from trying import delete as delete_named
from trying import get as get_named

MOST = int(os.environ.get("MOST", "1048576"))
MANY = int(os.environ.get("MANY", "2000"))
ROUNDS = int(os.environ.get("ROUNDS", "5"))


def name(key):
    return b"%05d" % key


def put(key, content, context=b""):
    return put_content(name(key), content, context)


def plain(length):
    """A content that is one value, so many bytes long in all."""
    for width in range(1, 6):
        value = length - 1 - width
        if value >= 0 and len(varint(value)) == width:
            return field(1, b"v" * value)
    return field(1, b"v" * (length - 3))


def get(key):
    return get_named(name(key))


def delete(key, context):
    return delete_named(name(key), context)


def context_in(body):
    """The context of a get's reply: its field 2, which stands after the contents."""
    at = 0
    while at < len(body):
        tag = body[at]
        at += 1
        length = shift = 0
        while True:
            byte = body[at]
            at += 1
            length |= (byte & 127) << shift
            shift += 7
            if byte < 128:
                break
        if tag == 0x12:
            return body[at : at + length]
        at += length
    raise RuntimeError("no context")


class Case:
    """What is asked of a new node: first what makes it ready, then what is measured, of which each reply has one code."""

    def __init__(self, requests, code, ready=(), made=None, wait=0.0):
        self.requests, self.code, self.ready, self.made, self.wait = requests, code, list(ready), made, wait


class Whole(Case):
    """Requests that count as one."""


def measure(case):
    """Microseconds and peak bytes of a request of the case, beyond those of the node that is ready for it."""
    node = Node()
    node.replies([PING])
    if case.ready:
        for code, body in node.replies(case.ready):
            assert code != ERROR, body
    requests = case.made(node) if case.made else case.requests
    memory, spent = node.peak(), node.processor()
    replies = node.replies(requests, case.wait)
    spent, memory = node.processor() - spent, node.peak() - memory
    for code, body in replies:
        assert code == case.code, (code, body[:80])
    node.end()
    return spent / len(requests) / 1000, memory / len(requests)


def forged(width, count):
    """A context of so many actors that no vnode is: each with its first dot."""
    return b"\x02" + b"".join(struct.pack(">QI", vnode, 1) + (1).to_bytes(width - 12, "big") for vnode in range(1, count + 1))


def width_of(node):
    """How many bytes a pair of a context has, as the node's own contexts show."""
    replies = node.replies([put(99_999, plain(10)), get(99_999)])
    return len(context_in(replies[1][1])) - 1


def counted(context, width, count):
    """The contexts that see each put of a stream before the next: the counter of the node's own actor, which stands last, rises."""
    head, first = context[: -(width - 12)], int.from_bytes(context[-(width - 12) :], "big")
    return [head + (first + n).to_bytes(width - 12, "big") for n in range(count)]


def wide_clock(node, key):
    """Makes a key whose clock knows 64 actors, and gives its context."""
    width = width_of(node)
    replies = node.replies([put(key, plain(100), forged(width, 63)), get(key)])
    assert replies[0][0] == PUT_DONE, replies[0]
    context = context_in(replies[1][1])
    assert len(context) == 1 + 64 * width
    return width, context


def stream_of_wide_puts(count):
    def made(node):
        width, context = wide_clock(node, 1)
        return [put(1, plain(100), seen) for seen in counted(context, width, count)]

    return made


def stream_of_plain_puts(count):
    def made(node):
        width = width_of(node)
        context = context_in(node.replies([put(1, plain(100)), get(1)])[1][1])
        # As many bytes in all: 63 pairs more in the value.
        return [put(1, plain(101 + 63 * width), seen) for seen in counted(context, width, count)]

    return made


def deletes(count, is_wide):
    def made(node):
        asks = []
        for key in range(count):
            if is_wide:
                context = wide_clock(node, key)[1]
            else:
                context = context_in(node.replies([put(key, plain(100)), get(key)])[1][1])
            asks.append(delete(key, context))
        return asks

    return made


def gets_of(count, key):
    return [get(key)] * count


def wide_gets(count):
    def made(node):
        wide_clock(node, 1)
        return gets_of(count, 1)

    return made


def room():
    """How many bytes a content may have that fills a frame."""
    return MOST - len(field(1, b"b") + field(2, name(0))) - 7


def long_contents():
    """What fills a frame, by what it is made of."""
    return {
        "empty links": b"\x0a\x00" + b"\x32\x00" * ((room() - 2) // 2),
        "empty pairs": b"\x0a\x00" + b"\x4a\x02\x0a\x00" * ((room() - 2) // 4),
        "one field again and again": b"\x0a\x00" * (room() // 2),
    }


def rows():
    """The rows of the table: what, the worst case, and the plain one of the same bytes."""
    keys = range(4)
    for what, content in long_contents().items():
        same = plain(len(content))
        yield f"put of {what}", Case([put(key, content) for key in keys], PUT_DONE), Case([put(key, same) for key in keys], PUT_DONE)
        yield (
            f"get of {what}",
            Case(gets_of(4, 0), FOUND, [put(0, content)]),
            Case(gets_of(4, 0), FOUND, [put(0, same)]),
        )
    some = [put(1, plain(1_000)) for _ in range(64)]
    yield "get of 64 siblings", Case(gets_of(MANY // 10, 1), FOUND, some), Case(gets_of(MANY // 10, 1), FOUND, [put(1, plain(64_000))])
    large = [put(1, plain(MOST // 70)) for _ in range(64)]
    whole = [put(1, plain(MOST // 70 * 64))]
    yield "get of 64 siblings, unread", Case(gets_of(1, 1), FOUND, large, wait=0.5), Case(gets_of(1, 1), FOUND, whole)
    yield "put by a context of 64", Case(None, PUT_DONE, made=stream_of_wide_puts(MANY)), Case(None, PUT_DONE, made=stream_of_plain_puts(MANY))
    yield "get of a context of 64", Case(None, FOUND, made=wide_gets(MANY)), Case(gets_of(MANY, 1), FOUND, [put(1, plain(1_108))])
    few = MANY // 10
    yield "delete by a context of 64", Case(None, DELETE_DONE, made=deletes(few, True)), Case(None, DELETE_DONE, made=deletes(few, False))
    block = plain(room())
    yield "a frame's bytes of pings", Whole([PING] * (MOST // 5), 2), Whole([put(0, block)], PUT_DONE)
    yield "a frame's bytes of small gets", Whole([get(0)] * (MOST // len(get(0))), FOUND), Whole([put(0, block)], PUT_DONE)


def share(case, spent, memory):
    count = len(case.requests) if isinstance(case, Whole) else 1
    return spent * count, memory * count


def main():
    print(f"{'':34} {'us':>10} {'plain us':>10} {'times':>7} {'peak KiB':>10} {'plain KiB':>10} {'times':>7}")
    for what, worst, plainly in rows():
        got = []
        for case in (worst, plainly):
            found = [share(case, *measure(case)) for _ in range(ROUNDS)]
            got.append([sorted(part)[ROUNDS // 2] for part in zip(*found)])
        (spent, memory), (plain_spent, plain_memory) = got
        times = f"{memory / plain_memory:>7.1f}" if plain_memory >= 1024 else f"{'-':>7}"
        print(
            f"{what:34} {spent:>10.2f} {plain_spent:>10.2f} {spent / plain_spent:>7.1f}"
            f" {memory / 1024:>10.1f} {plain_memory / 1024:>10.1f} {times}",
            flush=True,
        )


if __name__ == "__main__":
    main()
