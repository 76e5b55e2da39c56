"""Instructions, time and peak memory of one put that fills a frame, by what its content is made of. See README.md."""
import sys
from statistics import median

sys.path.append(f"{sys.path[0]}/..")
from asking import PIPE, instructions_each
from measure import PUT_DONE, ROUNDS, Case, long_contents, measure, plain, put, room

FEW, MANY = 1, 5


def instructions(content):
    """Those of one put."""
    return instructions_each(PIPE, lambda count: [put(key, content) for key in range(count)], FEW, MANY)[0]


def main():
    contents = {"one value": plain(room()), **long_contents()}
    # In each round a new node gets one put of each content, in turn.
    rounds = [[measure(Case([put(0, content)], PUT_DONE)) for content in contents.values()] for _ in range(ROUNDS)]
    print(f"{'one put of':<27} {'instructions':>12} {'times':>6} {'us':>8} {'times':>6} {'peak KiB':>9} {'times':>6}")
    first = None
    for (what, content), measured in zip(contents.items(), zip(*rounds)):
        time, peak = map(median, zip(*measured))
        cost = instructions(content), time, peak / 1024
        first = first or cost
        print(f"{what:<27}" + "".join(f" {part:>{wide}.0f} {part / due:>6.1f}" for part, due, wide in zip(cost, first, (12, 8, 9))), flush=True)


main()
