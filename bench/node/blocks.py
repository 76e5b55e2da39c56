"""A node that says which blocks it holds of the C library's allocator, by live.c. See README.md."""
import os
import signal
import subprocess
import sys
import tempfile

sys.path.append(f"{sys.path[0]}/..")
from asking import Node
from trying import until

FOLDER = tempfile.TemporaryDirectory()
LIBRARY, TOLD = f"{FOLDER.name}/live.so", f"{FOLDER.name}/blocks"
subprocess.run(["cc", "-O2", "-fno-builtin", "-shared", "-fPIC", "-o", LIBRARY, f"{sys.path[0]}/live.c", "-ldl"], check=True)


def is_told():
    return os.path.exists(TOLD) and open(TOLD).read().endswith("end\n")


class CountedNode(Node):
    """A running `pipe`, of which live.c counts the blocks."""

    def __init__(self, *options):
        super().__init__(*options, LD_PRELOAD=LIBRARY, LIVE_BLOCKS=TOLD)

    def blocks(self):
        """Sizes of blocks with how many there are; what lies in blocks of a megabyte or more is one of the size `large`."""
        if os.path.exists(TOLD):
            os.remove(TOLD)
        self.process.send_signal(signal.SIGUSR1)
        until(is_told, "the node hasn't told its blocks")
        lines = [line.split() for line in open(TOLD).read().splitlines()[:-1]]
        return [(size, 1, int(count)) if size == "large" else (size, int(count), int(size) * int(count)) for size, count in lines]

    def held(self):
        """The bytes of all blocks."""
        return sum(held for _, _, held in self.blocks())
