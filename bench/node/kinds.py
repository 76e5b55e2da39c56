"""The kinds of requests whose instructions are counted, and names for their keys. See README.md."""
import sys

sys.path.append(f"{sys.path[0]}/..")
from asking import PIPE, context, instructions_each
from trying import PING, delete, field, get, put, varint

VALUE = bytes(range(100))
KEYS = 1000
SHORT, LONG = 1000, 3000
# how heads are asked for, of a get and of a put, and bodies, of a put
HEAD, RETURN_BODY, RETURN_HEAD = varint(8 << 3) + b"\1", varint(7 << 3) + b"\1", varint(11 << 3) + b"\1"


class Names:
    """Keys by their numbers: each has a name, and all have one bucket and one bucket type, the default where none is given."""

    def __init__(self, name=lambda key: b"user-%08d" % (key * 7919 % 1_000_003), bucket=b"users", bucket_type=b""):
        self.name, self.bucket, self.bucket_type = name, bucket, bucket_type

    def names(self, key, number):
        """The arguments that name a key; the number is that of the bucket type's field."""
        return {"key": self.name(key), "bucket": self.bucket, "more": field(number, self.bucket_type) if self.bucket_type else b""}

    def get(self, key, options=b""):
        named = self.names(key, 13)
        return get(**{**named, "more": named["more"] + options})

    def put(self, key, seen=b"", options=b""):
        named = self.names(key, 16)
        return put(value=VALUE, context=seen, **{**named, "more": named["more"] + options})

    def delete(self, key, seen=b""):
        return delete(context=seen, **self.names(key, 13))

    def puts(self, count, options=b""):
        return [self.put(key, options=options) for key in range(count)]

    def put_by_context(self, index, options=b""):
        """A put of each key in turn, by what its last one showed on a ring of one."""
        key = index % KEYS
        return self.put(key, context(key + 1, index // KEYS + 1), options)

    def updates(self, count):
        made = self.puts(KEYS)
        for index in range(count // 2):
            made += [self.get(index % KEYS), self.put_by_context(index)]
        return made


KINDS = {
    "ping": lambda names, count: [PING] * count,
    "get": lambda names, count: names.puts(KEYS) + [names.get(index * 31 % KEYS) for index in range(count)],
    "get of two siblings": lambda names, count: 2 * names.puts(KEYS) + [names.get(index * 31 % KEYS) for index in range(count)],
    "get of a head": lambda names, count: names.puts(KEYS) + [names.get(index * 31 % KEYS, HEAD) for index in range(count)],
    "get of an absent key": lambda names, count: names.puts(KEYS) + [names.get(KEYS + index) for index in range(count)],
    "put of a new key": lambda names, count: names.puts(KEYS + count),
    "put of a new key, body": lambda names, count: names.puts(KEYS + count, RETURN_BODY),
    "put without a context": lambda names, count: names.puts(KEYS) + [names.put(index * 31 % KEYS) for index in range(count)],
    "put by its context": lambda names, count: names.puts(KEYS) + [names.put_by_context(index) for index in range(count)],
    "put by its context, body": lambda names, count: names.puts(KEYS) + [names.put_by_context(index, RETURN_BODY) for index in range(count)],
    "put by its context, head": lambda names, count: names.puts(KEYS) + [names.put_by_context(index, RETURN_HEAD) for index in range(count)],
    "get, and put by its context": lambda names, count: names.updates(count),
    "delete": lambda names, count: names.puts(LONG) + [names.delete(index * 31 % LONG) for index in range(count)],
    "delete by a context": lambda names, count: names.puts(LONG) + [names.delete(key, context(key + 1, 1)) for key in range(count)],
}


def each(command, kind, names):
    """The instructions of one request of a kind, and the replies."""
    return instructions_each(command, lambda count: KINDS[kind](names, count), SHORT, LONG)
