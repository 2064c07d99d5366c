#!/usr/bin/env python3
"""A client of `eiger serve`, by the library in clients/python.

    python3 examples/client.py PORT

inserts a column, reads it back, deletes it, and reads again, over one connection.

    python3 examples/client.py PORT COUNT

has so many connections at once, which `eiger serve --concurrent` gives a session each: every one inserts a column of its own,
and then reads those of all.
"""
import pathlib
import sys

sys.path.insert(0, str(pathlib.Path(__file__).resolve().parents[1] / "clients" / "python"))
from eiger import Written, connect, delete, insert  # noqa: E402


def told(result):
    if isinstance(result, Written):
        return f"wrote commit {result.commit} stamp {result.stamp.time}.{result.stamp.node}"
    return "\n".join([f"read at {result.time}", *(f"  {key!r}: {list(row.items())}" for key, row in result.rows.items())])


def alone(port):
    with connect("127.0.0.1", port) as connection:
        print(told(connection.write(insert(b"f", b"b", b"x", b"1"))))
        print(told(connection.read(b"f", [b"b"], names=[b"x"])))
        print(told(connection.write(delete(b"f", b"b", b"x"))))
        print(told(connection.read(b"f", [b"b"])))


def together(port, count):
    connections = [connect("127.0.0.1", port) for _ in range(count)]
    for i, connection in enumerate(connections):
        print("client", i, told(connection.write(insert(b"f", b"b", b"x%d" % i, b"1"))))
    for i, connection in enumerate(connections):
        print("client", i, told(connection.read(b"f", [b"b"])))
    for connection in connections:
        connection.close()


if __name__ == "__main__":
    if len(sys.argv) > 2:
        together(int(sys.argv[1]), int(sys.argv[2]))
    else:
        alone(int(sys.argv[1]))
