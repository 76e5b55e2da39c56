"""What keys take beside their values, and what is given back as they come and go or their values shrink. See README.md."""
import os
import sys

sys.path.append(f"{sys.path[0]}/..")
from asking import context, shuffled
from blocks import CountedNode
from trying import DELETED, PING, PONG, STORED, delete, put

KEYS = int(os.environ.get("KEYS", "100000"))
SWEEP = ("--sweep", "4")
# How many keys come and go for one that stays.
GOING = 10
LENGTHS, VALUES = (10, 36), (10, 100, 1000)
# An actor that is none of the node's own, as that of a life of its key before, of which a context may know.
OTHER = context(1, 1, vnode=1)
OTHERS = OTHER + context(2, 1, vnode=1)[1:]


def puts(order, length=10, value=100, seen=b""):
    return [put(b"%0*d" % (length, key), b"v" * value, seen) for key in order], STORED


def deletes(order):
    return [delete(b"%010d" % key) for key in order], DELETED


def replaced(order, value, puts_before=1):
    """A put of each key by what its last one showed."""
    return [put(b"%010d" % key, b"v" * value, context(epoch + 1, puts_before)) for epoch, key in enumerate(order)], STORED


def come_and_go(order):
    """A put and a delete of each key, one after the other."""
    return [put(b"%010d" % key, b"v" * 100) + delete(b"%010d" % key) for key in order], STORED + DELETED


def taken(*asked, options=()):
    """The bytes that these requests leave taken beyond those of an empty node: resident ones, and those of the allocator's blocks."""
    node = CountedNode(*options)
    node.ask([PING], PONG)
    resident, held = node.resident(), node.held()
    for requests, reply in asked:
        node.ask(requests, reply)
    resident, held = node.resident() - resident, node.held() - held
    node.end()
    return resident, held


def show_keys():
    some = shuffled(range(KEYS))
    print(f"{'bytes a key beside its values':<42} {'resident':>9} {'held':>7}")
    rows = [(f"{length} bytes, a value of {value}", value, [puts(some, length, value)]) for length in LENGTHS for value in VALUES]
    rows += [(f"10 bytes, {count} siblings of 100", count * 100, [puts(some)] * count) for count in (2, 3)]
    rows += [(f"10 bytes, a value of 100, {count} actors", 100, [puts(some, seen=seen)]) for count, seen in ((2, OTHER), (3, OTHERS))]
    rows += [("10 bytes, 2 siblings of 100, 2 actors", 200, [puts(some, seen=OTHER), puts(some)])]
    for name, values, asked in rows:
        resident, held = (part / KEYS - values for part in taken(*asked))
        print(f"{name:<42} {resident:>9.0f} {held:>7.0f}", flush=True)


def churned():
    """A fresh node with the keys that stay, and nodes to which others came and went."""
    stay, going = shuffled(range(KEYS)), shuffled(range(KEYS, KEYS * (1 + GOING)))
    mixed = shuffled(range(KEYS * (1 + GOING)))
    yield "only those that stay", (), [puts(stay)]
    yield "others came and went, one after another", SWEEP, [puts(stay), come_and_go(going)]
    yield "all came, and the others went", SWEEP, [puts(mixed), deletes(going)]
    yield "all came, and all went", SWEEP, [puts(mixed), deletes(going), deletes(stay)]
    yield "the others came and went twice more", SWEEP, [puts(mixed), deletes(going), *2 * [puts(going), deletes(going)]]
    yield "one after another, without --sweep", (), [puts(stay), come_and_go(going)]


def shrunk():
    """A fresh node with small values, and one where they stand in the place of large ones."""
    some = shuffled(range(KEYS))
    yield "values of 10", (), [puts(some, value=10)]
    yield "values of 1000", (), [puts(some, value=1000)]
    yield "values of 1000, replaced by 10", (), [puts(some, value=1000), replaced(some, 10)]
    yield "these replaced by 1000 again", (), [puts(some, value=1000), replaced(some, 10), replaced(some, 1000, 2)]


def show_beside(title, rows):
    """What each node has taken, and how many times what the first one has."""
    print(f"\n{title:<42} {'resident':>9} {'held':>7} {'times':>9} {'times':>7}")
    base = None
    for name, options, asked in rows:
        got = taken(*asked, options=options)
        base = base or got
        resident, held = (part / base_part for part, base_part in zip(got, base))
        print(f"{name:<42} {got[0] >> 10:>9} {got[1] >> 10:>7} {resident:>9.2f} {held:>7.2f}", flush=True)


def main():
    show_keys()
    show_beside(f"KiB with {KEYS} keys, {GOING * KEYS} others", churned())
    show_beside(f"KiB with {KEYS} keys", shrunk())


main()
