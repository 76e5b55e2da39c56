"""Time and memory of `riak_node pipe` by the number of its keys. See README.md."""
import os
import sys
from statistics import median

sys.path.append(f"{sys.path[0]}/..")
from asking import PIPE, Node, instructions_each, shuffled
from blocks import CountedNode
from trying import STORED, get, put

MANY_BUCKETS = 10_000
VALUE = bytes(range(100))
LEAST_REQUESTS, ROUNDS = 50_000, 3
# Where instructions are counted: how many keys there are at most, and how many requests are counted.
MOST_COUNTED, COUNTED = 100_000, 500


def names(key, buckets=1):
    """A key of thirteen bytes, and its bucket of five."""
    return {"key": b"user-%08d" % key, "bucket": b"users" if buckets == 1 else b"u%04d" % (key % buckets)}


def puts(order, buckets=1):
    return [put(value=VALUE, **names(key, buckets)) for key in order]


def gets(order, buckets=1):
    return [get(**names(key, buckets)) for key in order]


def strided(keys):
    """The numbers of these keys by strides: each key's neighbours are asked for soon before or after it. 7,919 divides no number of keys here."""
    return [i * 7919 % len(keys) for i in keys]


def cost_of(keys, buckets=1, ordered=strided):
    """What one of so many keys costs: microseconds of the node for a put of a new key and for a get, and bytes at the peak."""
    node = Node()
    node.ask(gets([0]))
    base = node.peak()
    order = ordered(range(keys))
    put_time, _ = node.ask(puts(order, buckets), STORED)
    memory = node.peak() - base
    get_time, reply = node.ask(gets(order[::-1], buckets))
    assert VALUE in reply
    node.end()
    return put_time / keys / 1000, get_time / keys / 1000, memory / keys


def medians(costs):
    return [median(part) for part in zip(*costs)]


def show_growth(sizes, ordered):
    """The cost of a key in nodes of these sizes, which come in turn in each round."""
    rounds = [
        [medians([cost_of(keys, ordered=ordered) for _ in range(max(1, LEAST_REQUESTS // keys))]) for keys in sizes] for _ in range(ROUNDS)
    ]
    print(f"{ordered.__name__ + ':':<36} 10 times the keys, in times")
    print(f"{'keys':>9} {'put us':>8} {'get us':>8} {'bytes':>8} {'puts':>6} {'gets':>6} {'memory':>7}")
    for at, keys in enumerate(sizes):
        put_time, get_time, memory = medians([costs[at] for costs in rounds])
        line = f"{keys:>9} {put_time:>8.2f} {get_time:>8.2f} {memory:>8.0f}"
        if at:
            times = medians([[10 * now / before for now, before in zip(costs[at], costs[at - 1])] for costs in rounds])
            line += f" {times[0]:>6.1f} {times[1]:>6.1f} {times[2]:>7.1f}"
        print(line, flush=True)


def show_instructions(sizes):
    """Those of a put of a new key and of a get among so many keys, which came in a random order."""
    print("instructions:                        10 times the keys, in times")
    print(f"{'keys':>9} {'put':>8} {'get':>8} {'':>8} {'puts':>6} {'gets':>6}")
    before = None
    for keys in sizes:
        order = shuffled(range(2 * keys))
        held = puts(order[:keys])
        now = [instructions_each(PIPE, lambda count: held + some[:count], 0, COUNTED)[0] for some in (puts(order[keys:]), gets(order))]
        times = "".join(f" {10 * count / due:>6.1f}" for count, due in zip(now, before)) if before else ""
        print(f"{keys:>9} {now[0]:>8.0f} {now[1]:>8.0f} {'':>8}{times}", flush=True)
        before = now


def show_memory(keys, buckets):
    put_time, get_time, memory = cost_of(keys, buckets)
    print(
        f"{keys} keys in {buckets} bucket{'s' * (buckets > 1)}: {memory:.0f} bytes a key at the peak, "
        f"{memory - len(VALUE):.0f} beside its value; put {put_time:.2f} us, get {get_time:.2f} us"
    )


def show_parts(keys):
    """What the node holds of the C library's allocator, a line for each size of block that counts."""
    node = CountedNode()
    node.ask(puts(strided(range(keys))), STORED)
    print(f"{'block':>7} {'a key':>8} {'bytes a key':>12}")
    for size, count, held in node.blocks():
        if held / keys >= 0.5:
            print(f"{size:>7} {count / keys:>8.3f} {held / keys:>12.1f}")
    node.end()


def main():
    keys = int(os.environ.get("KEYS", "100000"))
    show_memory(keys, 1)
    show_memory(keys, MANY_BUCKETS)
    show_parts(keys)
    most = int(os.environ.get("MOST", "1000000"))
    sizes = [10**digits for digits in range(3, 10) if 10**digits <= most]
    show_instructions([keys for keys in sizes if keys <= MOST_COUNTED])
    for ordered in strided, shuffled:
        show_growth(sizes, ordered)


main()
