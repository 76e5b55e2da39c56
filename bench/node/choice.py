"""What a get costs by how its key is chosen: uniformly, or by a zipf distribution. See README.md."""
import itertools
import os
import random
import sys
from statistics import median

sys.path.append(f"{sys.path[0]}/..")
from asking import PIPE, Node, instructions_each, shuffled
from trying import STORED, get, put

KEYS = int(os.environ.get("KEYS", "1000000"))
GETS, ROUNDS = 100_000, 11
# How many keys and gets there are where instructions are counted: the runs differ by their gets alone.
COUNTED, SHORT, LONG = KEYS // 10, 1_000, 11_000
EXPONENT = 0.99
KINDS = "uniform", "zipf"


def name(key):
    return b"user-%08d" % key


class Keys:
    """So many keys, and gets of them."""

    def __init__(self, count):
        self.source = random.Random(1)
        self.order = shuffled(range(count))
        # The key at a place of that order is asked for in proportion to 1 / (place + 1) ** EXPONENT.
        self.sums = list(itertools.accumulate((place + 1) ** -EXPONENT for place in range(count)))

    def puts(self):
        return [put(name(key), bytes(100)) for key in self.source.sample(self.order, len(self.order))]

    def gets(self, kind, count):
        return [get(name(key)) for key in self.source.choices(self.order, cum_weights=self.sums if kind == "zipf" else None, k=count)]


def times(keys):
    """The processor time of a get of each kind, by rounds, in which both kinds come in turn."""
    node = Node()
    node.ask(keys.puts(), STORED)
    rounds = [[node.ask(keys.gets(kind, GETS))[0] / GETS for kind in KINDS] for _ in range(ROUNDS)]
    node.end()
    return rounds


def instructions(keys):
    """Those of a get of each kind."""
    puts = keys.puts()
    gets = [keys.gets(kind, LONG) for kind in KINDS]
    return [instructions_each(PIPE, lambda count: puts + some[:count], SHORT, LONG)[0] for some in gets]


def show(what, values, ratio):
    print(f"{what:<44}" + "".join(f" {value:>8.0f}" for value in values) + f" {ratio:>6.2f}", flush=True)


def main():
    print(f"{'a get':<44}" + "".join(f" {kind:>8}" for kind in KINDS) + f" {'ratio':>6}")
    rounds = times(Keys(KEYS))
    ratios = [zipf / uniform for uniform, zipf in rounds]
    for what, of in (("median", median), ("least", min), ("most", max)):
        show(f"ns of the processor, {KEYS} keys, {what}", [of(took) for took in zip(*rounds)], of(ratios))
    counts = instructions(Keys(COUNTED))
    show(f"instructions, {COUNTED} keys", counts, counts[1] / counts[0])


main()
