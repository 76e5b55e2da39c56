"""Instructions of a request by `riak_node pipe` and by the node without proofs. See README.md."""
import subprocess
import sys
import tempfile

from kinds import KINDS, Names, each
from trying import PROGRAM


def compare(plain, kind, ring):
    theirs, due = each([plain, "pipe", ring], kind, Names())
    mine, replies = each([PROGRAM, "pipe", "--ring", ring], kind, Names())
    same = "" if replies == due else "  THE REPLIES DIFFER"
    print(f"{kind:<30} {ring:>4} {theirs:>7.0f} {mine:>7.0f} {mine / theirs:>6.2f}{same}", flush=True)


def main():
    with tempfile.TemporaryDirectory() as folder:
        plain = f"{folder}/plain"
        subprocess.run(["rustc", "-O", "--edition", "2021", "-o", plain, f"{sys.path[0]}/node.rs"], check=True)
        print(f"{'instructions of one request':<30} {'ring':>4} {'plain':>7} {'ours':>7} {'ratio':>6}")
        for kind in KINDS:
            for ring in "1", "64":
                # A key's epoch on a larger ring is another, so there what goes by a context has none to give.
                if ring == "1" or "context" not in kind or "without" in kind:
                    compare(plain, kind, ring)


main()
