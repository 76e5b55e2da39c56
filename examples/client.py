"""One client of a node: put, get, put by what was seen, get, delete, get. Prints what it asks and what it is answered.

    python3 examples/client.py PROGRAM [--pipe]
    python3 examples/client.py --port N

PROGRAM is the built node. The client starts `PROGRAM serve` on a free port and connects to it; with --pipe it starts
`PROGRAM pipe`, and talks to it over its standard streams; with --port it connects to a node that runs already.
"""

import sys

from riak_client import Node, Refused


def show(line, reply):
    """Prints a get with the values that it showed."""
    values = [content.value.decode() for content in reply.content]
    print(f"{line}: {', '.join(values) if values else 'nothing'}")


def main():
    if sys.argv[1:] in (["--help"], ["-h"]):
        print(__doc__)
        return
    node = Node.of_words(sys.argv[1:])
    if not node:
        sys.exit(__doc__)
    client = node.client
    client.ping()
    print("ping: answered")

    show("get cities/rome", client.get(b"cities", b"rome"))
    client.put(b"cities", b"rome", b"Roma")
    print("put Roma: stored")
    seen = client.get(b"cities", b"rome")
    show("get", seen)

    client.put(b"cities", b"rome", b"Roma Capitale", context=seen.vclock)
    print("put Roma Capitale, by what that get showed: stored")
    seen = client.get(b"cities", b"rome")
    show("get", seen)

    try:
        client.put(b"cities", b"rome", b"Roma Aeterna", if_none_match=True)
    except Refused as refusal:
        print(f"put Roma Aeterna, if there is none: refused, {refusal}")

    client.delete(b"cities", b"rome", context=seen.vclock)
    print("delete, by what that get showed: done")
    show("get", client.get(b"cities", b"rome"))
    status = node.end()
    if status is not None:
        print(f"the node ended with status {status}")


if __name__ == "__main__":
    main()
