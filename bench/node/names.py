"""Instructions of a request by how its key is named. See README.md."""
import hashlib

from kinds import PIPE, Names, each


def digits(key):
    """32 hexadecimal digits, as if by chance."""
    return hashlib.md5(b"%d" % key).hexdigest().encode()


def short(key):
    return digits(key)[:10]


def uuid(key):
    text = digits(key)
    return b"-".join((text[:8], text[8:12], text[12:16], text[16:20], text[20:]))


NAMES = {
    "10 bytes": Names(short),
    "16 bytes": Names(lambda key: digits(key)[:16]),
    "17 bytes": Names(lambda key: digits(key)[:17]),
    "36 bytes, the text of a UUID": Names(uuid),
    "36 bytes, 20 of them common": Names(lambda key: b"user:session:europe:" + digits(key)[:16]),
    "10 bytes, a bucket of 36": Names(short, bucket=uuid(0)),
    "10 bytes, a bucket type of 5": Names(short, bucket_type=b"carts"),
    "10 bytes, a bucket type of 36": Names(short, bucket_type=uuid(0)),
}
OPERATIONS = "get", "put of a new key", "put by its context", "delete"


def main():
    print(f"{'key':<30} " + " ".join(f"{kind:>24}" for kind in OPERATIONS))
    first = {}
    for name, names in NAMES.items():
        line = f"{name:<30}"
        for kind in OPERATIONS:
            count, replies = each(PIPE, kind, names)
            # Replies name no key, so they are the same for all names.
            due, due_replies = first.setdefault(kind, (count, replies))
            assert replies == due_replies, (name, kind)
            line += f" {count:>18.0f} {count / due:>5.2f}"
        print(line, flush=True)


main()
