"""Both forms beside the server that the variable EIGER names: the program that `eiger serve` runs."""

import asyncio
import contextlib
import io
import os
import re
import socket
import subprocess
import unittest
from pathlib import Path
from typing import Any, Callable, Dict, List, Optional, Tuple

import eiger.aio
from eiger import Read, Request, Written, batch, delete, delete_range, delete_row, insert, read
from eiger.errors import refusal
from eiger.wire import Frames, parse

from .fake import SECONDS, sized

EIGER = os.environ.get("EIGER")
FAMILIES = (b"f", b"g")
FLAGS = ["--concurrent", "--sessions", "16", "--dcs", "2", "--families", "f,g"]
ATTEMPTS = 5
BIG = b"v" * 65_536

Rows = Dict[bytes, List[Tuple[bytes, bytes]]]
# What a connection is asked of a family, and which rows it reads.
STEPS: List[Tuple[Callable[[Any, bytes], Any], Optional[Rows]]] = [
    (lambda it, f: it.read(f, [b"row"]), {b"row": []}),
    (lambda it, f: it.write(*[insert(f, b"row", name, b"1") for name in (b"d", b"a", b"c", b"b")]), None),
    (lambda it, f: it.write(insert(f, b"other", b"x", BIG), insert(f, b"other", b"y", b"")), None),
    (lambda it, f: it.read(f, [b"other"], names=[b"y", b"x"]), {b"other": [(b"x", BIG), (b"y", b"")]}),
    (lambda it, f: it.read(f, [b"row", b"no"], names=[b"c", b"x", b"a"]), {b"row": [(b"a", b"1"), (b"c", b"1")], b"no": []}),
    (lambda it, f: it.read(f, [b"row"], names=[]), {b"row": []}),
    (lambda it, f: it.read(f, [b"row"], start=b"b", finish=b"c"), {b"row": [(b"b", b"1"), (b"c", b"1")]}),
    (lambda it, f: it.read(f, [b"row"], count=1), {b"row": [(b"a", b"1")]}),
    (lambda it, f: it.read(f, [b"row"], count=0), {b"row": []}),
    (lambda it, f: it.read(f, [b"row"], start=b"c", reversed=True, count=2), {b"row": [(b"c", b"1"), (b"b", b"1")]}),
    (lambda it, f: it.write(delete(f, b"row", b"b")), None),
    (lambda it, f: it.read(f, [b"row"], finish=b"c", count=2), {b"row": [(b"a", b"1"), (b"c", b"1")]}),
    (lambda it, f: it.write(delete_range(f, b"row", b"b", b"c"), insert(f, b"row", b"c", b"2")), None),
    (lambda it, f: it.read(f, [b"row"]), {b"row": [(b"a", b"1"), (b"c", b"2"), (b"d", b"1")]}),
    (lambda it, f: it.write(delete_row(f, b"row"), insert(f, b"row", b"e", b"3"), delete_range(f, b"other")), None),
    (lambda it, f: it.read(f, [b"row", b"other"]), {b"row": [(b"e", b"3")], b"other": []}),
]
# Requests that are refused, spelled here where the library refuses to spell them; the connection goes on.
REFUSED: List[Tuple[int, Request[Any]]] = [
    (1, Request(bytes.fromhex("01 00000000"), Written)),
    (2, read(b"no_family", [b"b"])),
    (3, Request(bytes.fromhex("01 00000001 0166 0000 02"), Written)),
    (4, Request(bytes.fromhex("01 00000001 0166 000162 01 0000"), Written)),
    (5, Request(bytes.fromhex("01 00000001 0166 000162 00 000178") + sized(4, b"v" * 65_537), Written)),
    (6, Request(bytes.fromhex("01 00001001") + delete_row(b"f", b"b").spelled * 4_097, Written)),
    (7, read(b"f", [b"b"], start=b"c", finish=b"b")),
    (7, batch(delete_range(b"f", b"b", b"c", b"b"))),
    (8, Request(bytes.fromhex("02 0166 00000000 00 00000000"), Read)),
    (27, eiger.move(2)),
]
# Those that end it.
FAULTS: List[Tuple[int, bytes]] = [
    (31, bytes.fromhex("05")),
    (32, bytes.fromhex("01 00000009")),
    (33, eiger.move(1).body + b"\0"),
    (34, b""),
]


class Server:
    """The server of all these tests."""

    address: Tuple[str, int]
    process: "subprocess.Popen[str]"


def setUpModule() -> None:
    if EIGER is None:
        raise unittest.SkipTest("EIGER names no program")
    for _ in range(ATTEMPTS):
        with socket.create_server(("127.0.0.1", 0)) as free:
            Server.address = free.getsockname()
        port = str(Server.address[1])
        Server.process = subprocess.Popen([EIGER, "serve", "--port", port, *FLAGS], stdout=subprocess.PIPE, text=True)
        assert Server.process.stdout is not None
        if Server.process.stdout.readline() == f"listening {port}\n":
            return
        tearDownModule()
    raise AssertionError("the server doesn't listen")


def tearDownModule() -> None:
    Server.process.kill()
    Server.process.communicate()


def connected() -> eiger.Connection:
    return eiger.connect(*Server.address, SECONDS)


def at_home(connection: eiger.Connection, dc: int) -> None:
    """Moves to this data centre, where the session isn't there already."""
    try:
        connection.move(dc)
    except eiger.AlreadyHome:
        pass


class Meaning(unittest.TestCase):
    def look(self, came: Any, rows: Optional[Rows], time: int) -> int:
        """Looks at what a step came to, and gives its time."""
        if rows is None:
            self.assertGreater(came.commit, time)
            self.assertEqual(came.stamp.time, came.commit)
            return int(came.commit)
        self.assertGreaterEqual(came.time, time)
        self.assertEqual([(key, list(row.items())) for key, row in came.rows.items()], list(rows.items()))
        return int(came.time)

    def test_steps(self) -> None:
        time = 0
        with connected() as connection:
            for step, rows in STEPS:
                time = self.look(step(connection, FAMILIES[0]), rows, time)

    def test_steps_of_asyncio(self) -> None:
        async def walk() -> None:
            time = 0
            async with await eiger.aio.connect(*Server.address) as connection:
                for step, rows in STEPS:
                    time = self.look(await asyncio.wait_for(step(connection, FAMILIES[1]), SECONDS), rows, time)

        asyncio.run(walk())

    def test_a_session_moves(self) -> None:
        with connected() as connection:
            at_home(connection, 0)
            written = connection.write(insert(b"f", b"moved", b"x", b"1"))
            moved = connection.move(1)
            self.assertEqual(moved.dc, 1)
            found = connection.read(b"f", [b"moved"])
            self.assertEqual(found.rows, {b"moved": {b"x": b"1"}})
            self.assertGreaterEqual(found.time, moved.floor)
            self.assertRaises(eiger.AlreadyHome, connection.move, 1)
            connection.move(0)
            self.assertGreater(connection.write(delete_row(b"f", b"moved")).stamp, written.stamp)


class Page(unittest.TestCase):
    def test_what_the_page_shows_runs(self) -> None:
        page = (Path(__file__).resolve().parents[1] / "README.md").read_text(encoding="utf-8")
        blocks = re.findall(r"^    (?:import|from)(?:.*\n(?:    |\n(?=    )))*.*\n", page, re.M)
        self.assertEqual(len(blocks), 3)
        printed = io.StringIO()
        with connected() as connection, contextlib.redirect_stdout(printed):
            names: Dict[str, Any] = {}
            for block in blocks:
                names["connection"] = connection
                exec(re.sub("^    ", "", block, flags=re.M).replace("7000", str(Server.address[1])), names)
        self.assertRegex(printed.getvalue(), r"(?s)^\d+ Stamp\(.*\d+ b'1'\n\{b'y': b'2'\}\n$")


class Refusals(unittest.TestCase):
    def test_the_connection_goes_on(self) -> None:
        with connected() as connection:
            answers = [connection.submit(request) for _, request in REFUSED]
            for (number, _), one in zip(REFUSED, answers):
                with self.assertRaises(type(refusal(number))):
                    one.result()
            self.assertEqual(connection.read(b"f", [b"never"]).rows, {b"never": {}})

    def test_the_connection_ends(self) -> None:
        for number, body in FAULTS:
            with connected() as connection:
                answers = [connection.submit(Request(body, Written)) for _ in range(2)]
                with self.assertRaises(type(refusal(number))):
                    answers[0].result()
                self.assertRaises(eiger.ConnectionLost, answers[1].result)

    def test_a_frame_that_is_too_long(self) -> None:
        frames = Frames()
        with socket.create_connection(Server.address, SECONDS) as stream:
            stream.sendall(bytes.fromhex("01000001"))
            while piece := stream.recv(100):
                frames.feed(piece)
        self.assertIsInstance(parse(frames.next() or b""), eiger.Oversize)

    def test_a_reply_that_is_too_long(self) -> None:
        with connected() as connection:
            for some in (range(130), range(130, 260)):
                connection.write(*[insert(b"f", b"long", b"%d" % name, BIG) for name in some])
            self.assertRaises(eiger.Oversize, connection.read, b"f", [b"long"], count=260)
            self.assertEqual(len(connection.read(b"f", [b"long"], count=250).rows[b"long"]), 250)
            connection.write(delete_row(b"f", b"long"))


class UnderWay(unittest.TestCase):
    def look(self, came: List[Any], value: bytes) -> None:
        """Looks at what a thousand requests came to, writes and reads in turn."""
        times = [one.commit for one in came[::2]]
        self.assertEqual(times, sorted(set(times)))
        for number, found in enumerate(came[1::2]):
            self.assertEqual(found.rows, {b"%d" % (number % 7): {b"x": b"%d" % number + value}})
            self.assertGreaterEqual(found.time, times[number])

    def requests(self, family: bytes, value: bytes) -> List[Request[Any]]:
        found: List[Request[Any]] = []
        for number in range(500):
            key = b"%d" % (number % 7)
            found += [batch(insert(family, key, b"x", b"%d" % number + value)), read(family, [key], names=[b"x"])]
        return found

    def test_a_thousand(self) -> None:
        for value in (b"", b"v" * 10_000):
            with connected() as connection:
                answers = [connection.submit(request) for request in self.requests(b"f", value)]
                self.look([one.result() for one in answers], value)

    def test_a_thousand_of_asyncio(self) -> None:
        async def ask(value: bytes) -> List[Any]:
            async with await eiger.aio.connect(*Server.address) as connection:
                waiting = [connection.ask(request) for request in self.requests(b"g", value)]
                return await asyncio.wait_for(asyncio.gather(*waiting), SECONDS)

        for value in (b"", b"v" * 10_000):
            self.look(asyncio.run(ask(value)), value)


if __name__ == "__main__":
    unittest.main()
