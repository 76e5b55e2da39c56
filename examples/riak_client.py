"""A small client of Riak's Protocol Buffers client API: frames over two byte streams, messages by Google's codec.

It needs Debian's python3-protobuf and nothing else. `riak_pb2.py` and `riak_kv_pb2.py` are what `protoc --python_out=.` makes of
`riak.proto` and `riak_kv.proto`.
"""

import socket
import struct
import subprocess

try:
    import riak_pb2
    import riak_kv_pb2
except ModuleNotFoundError as missing:
    raise ModuleNotFoundError(f"{missing}: install Debian's python3-protobuf, and use its /usr/bin/python3") from None

# Message codes: one byte in front of each message.
ERROR, PING, PONG, GET, GOT, PUT, PUT_DONE, DELETE, DELETED = 0, 1, 2, 9, 10, 11, 12, 13, 14


class Refused(Exception):
    """The node answered a request by an error; its text is the node's."""


class Node:
    """A node with one client, which is `client`; where the node was started for it, it is `process`, and None else."""

    def __init__(self, process, client):
        self.process = process
        self.client = client

    @classmethod
    def serving(cls, program):
        """Starts `program serve` for one connection, on a free port, and connects to it."""
        words = [program, "serve", "--connections", "1", "--port", "0"]
        process = subprocess.Popen(words, stdout=subprocess.PIPE, stderr=subprocess.DEVNULL)
        address = process.stdout.readline().decode()
        if not address:
            raise SystemExit(f"{program} did not serve, and ended with status {process.wait()}")
        return cls(process, Client.of_port(int(address.rsplit(":", 1)[1])))

    @classmethod
    def piping(cls, program):
        """Starts `program pipe`, whose client talks to it over its standard input and output."""
        process = subprocess.Popen([program, "pipe"], stdin=subprocess.PIPE, stdout=subprocess.PIPE)
        return cls(process, Client(process.stdin, process.stdout))

    @classmethod
    def running(cls, port):
        """A node that serves a port of this machine already."""
        try:
            return cls(None, Client.of_port(port))
        except ConnectionRefusedError:
            raise SystemExit(f"no node listens on 127.0.0.1:{port}") from None

    @classmethod
    def of_words(cls, words):
        """The node for an example's arguments: PROGRAM, PROGRAM `--pipe`, or `--port N`. None where they are others."""
        if len(words) == 2 and words[0] == "--port" and words[1].isdecimal():
            return cls.running(int(words[1]))
        if len(words) == 2 and words[1] == "--pipe":
            return cls.piping(words[0])
        return cls.serving(words[0]) if len(words) == 1 and not words[0].startswith("-") else None

    def end(self):
        """Ends the client's connection, and waits for a node that was started to end. Its exit status is returned, or None."""
        self.client.close()
        return self.process.wait() if self.process else None


class Client:
    """One connection: each call sends one request and waits for its reply."""

    def __init__(self, to_node, from_node, connection=None):
        self.to_node = to_node
        self.from_node = from_node
        self.connection = connection

    @classmethod
    def of_port(cls, port):
        """Connects to a node on this machine."""
        connection = socket.create_connection(("127.0.0.1", port))
        connection.setsockopt(socket.IPPROTO_TCP, socket.TCP_NODELAY, 1)
        return cls(connection.makefile("wb"), connection.makefile("rb"), connection)

    def close(self):
        """Ends the connection."""
        self.to_node.close()
        if self.connection:
            self.connection.shutdown(socket.SHUT_WR)

    def ping(self):
        """Asks whether the node is there."""
        self._ask(PING, b"", PONG)

    def get(self, bucket, key, **options):
        """The siblings of a key and their context: an RpbGetResp. Options are the request's other fields (`head=True`)."""
        request = riak_kv_pb2.RpbGetReq(bucket=bucket, key=key, **options)
        return riak_kv_pb2.RpbGetResp.FromString(self._ask(GET, request.SerializeToString(), GOT))

    def put(self, bucket, key, value, context=None, **options):
        """Stores a value. `context` is what a get showed: the value replaces what was seen there, and nothing else."""
        content = riak_kv_pb2.RpbContent(value=value)
        request = riak_kv_pb2.RpbPutReq(bucket=bucket, key=key, content=content, vclock=context, **options)
        return riak_kv_pb2.RpbPutResp.FromString(self._ask(PUT, request.SerializeToString(), PUT_DONE))

    def delete(self, bucket, key, context=None, **options):
        """Deletes what the context has seen; without a context, all that is stored."""
        request = riak_kv_pb2.RpbDelReq(bucket=bucket, key=key, vclock=context, **options)
        self._ask(DELETE, request.SerializeToString(), DELETED)

    def _ask(self, code, body, wanted):
        """Sends one frame and returns the body of the reply, which has to be of the wanted code."""
        self.to_node.write(struct.pack(">IB", len(body) + 1, code) + body)
        self.to_node.flush()
        length, answered = struct.unpack(">IB", self._read(5))
        reply = self._read(length - 1)
        if answered == ERROR:
            raise Refused(riak_pb2.RpbErrorResp.FromString(reply).errmsg.decode())
        if answered != wanted:
            raise ConnectionError(f"reply of code {answered} to a request of code {code}")
        return reply

    def _read(self, length):
        """Reads so many bytes, or raises ConnectionError where the stream has ended."""
        got = self.from_node.read(length)
        if len(got) < length:
            raise ConnectionError("the node ended the connection")
        return got
