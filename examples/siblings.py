"""Two writers of one key who don't know of each other, and how their values are merged. Nothing that was stored is lost.

    python3 examples/siblings.py PROGRAM [--pipe]
    python3 examples/siblings.py --port N

PROGRAM is the built node. The example starts `PROGRAM serve` on a free port and connects to it; with --pipe it starts
`PROGRAM pipe`, and talks to it over its standard streams; with --port it connects to a node that runs already.
"""

import sys

from riak_client import Node

CART = (b"carts", b"ann")


def items(content):
    """The items of a cart: one a line."""
    return set(content.value.decode().split())


def show(line, reply):
    """Prints the siblings that a get showed."""
    carts = [" ".join(sorted(items(content))) for content in reply.content]
    print(f"{line}: {' | '.join(carts)}")


def add(client, seen, item):
    """Adds an item to the cart as it was seen: the new cart replaces what was seen, and nothing else."""
    cart = set().union(*(items(content) for content in seen.content)) | {item}
    client.put(*CART, " ".join(sorted(cart)).encode(), context=seen.vclock)


def main():
    if sys.argv[1:] in (["--help"], ["-h"]):
        print(__doc__)
        return
    node = Node.of_words(sys.argv[1:])
    if not node:
        sys.exit(__doc__)
    client = node.client

    client.put(*CART, b"milk")
    phone = client.get(*CART)
    laptop = client.get(*CART)
    show("both devices see", phone)

    add(client, phone, "bread")
    add(client, laptop, "tea")
    both = client.get(*CART)
    show("after the phone added bread and the laptop tea", both)

    # Whoever meets siblings merges them, and writes by the context that showed them all.
    add(client, both, "jam")
    show("after a writer who saw both added jam", client.get(*CART))
    node.end()


if __name__ == "__main__":
    main()
