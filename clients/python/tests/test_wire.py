"""Requests and replies as bytes: the worked frames of docs/formats.md, cuts, garbage, limits, and refusals."""

import pickle
import random
import unittest
from functools import partial
from typing import Any, Callable, List, Tuple

from eiger import errors, wire
from eiger.errors import Collected, ConnectionLost, EigerError, ProtocolError, refusal
from eiger.exchange import Exchange
from eiger.results import Moved, Read, Stamp, Written
from eiger.wire import Change, Frames, Reply, Request, batch, delete, delete_range, delete_row, insert, move, read

from .fake import framed, sized, spelled
from .page import PAGE, refusals, worked

BLOCKS = worked("### A frame of each kind, byte by byte")
# Where the page has each request and each reply.
REQUESTS: List[Tuple[int, Request[Any]]] = [
    (0, batch(insert(b"f", b"b", b"x", b"1"))),
    (2, read(b"f", [b"b"], names=[b"x"])),
    (7, move(1)),
]
REPLIES: List[Tuple[int, Reply]] = [
    (1, Written(2, Stamp(2, 0))),
    (4, Read(2, {b"b": {b"x": b"1"}})),
    (5, Collected()),
    (6, refusal(7)),
    (8, Moved(1, 6)),
]
RANGE = 3
# What the page says that other changes end in.
ENDINGS: List[Tuple[Change, str]] = [
    (delete(b"f", b"b", b"x"), "01 00 01 78"),
    (delete_row(b"f", b"b"), "02"),
    (delete_range(b"f", b"b", b"b", b"c"), "03 00 01 62 00 01 63"),
]
LONG: List[Reply] = [
    Read(1 << 47, {b"a": {}, b"b": {b"x": b"", b"y": b"v" * 300}, b"c" * 300: {b"n" * 300: b"1"}}),
    Read(0, {}),
    refusal(999),
]
ALL = [reply for _, reply in REPLIES] + LONG

Made = Callable[[int], object]
# What may be so long or so many: from, to.
LIMITS: List[Tuple[str, Made, int, int]] = [
    ("family of a change", lambda n: delete_row(b"f" * n, b"k"), 1, 64),
    ("family of a read", lambda n: read(b"f" * n, [b"k"]), 1, 64),
    ("key of a change", lambda n: insert(b"f", b"k" * n, b"x", b""), 1, 1_024),
    ("key of a read", lambda n: read(b"f", [b"k" * n]), 1, 1_024),
    ("inserted name", lambda n: insert(b"f", b"k", b"x" * n, b""), 1, 1_024),
    ("deleted name", lambda n: delete(b"f", b"k", b"x" * n), 1, 1_024),
    ("name of a read", lambda n: read(b"f", [b"k"], names=[b"x" * n]), 1, 1_024),
    ("value", lambda n: insert(b"f", b"k", b"x", b"v" * n), 0, 65_536),
    ("deleted start", lambda n: delete_range(b"f", b"k", b"s" * n), 0, 1_024),
    ("deleted finish", lambda n: delete_range(b"f", b"k", b"", b"s" * n), 0, 1_024),
    ("start of a read", lambda n: read(b"f", [b"k"], start=b"s" * n), 0, 1_024),
    ("finish of a read", lambda n: read(b"f", [b"k"], finish=b"s" * n), 0, 1_024),
    ("changes", lambda n: batch(*[delete_row(b"f", b"k")] * n), 1, 4_096),
    ("keys", lambda n: read(b"f", [b"k"] * n), 1, 256),
    ("names", lambda n: read(b"f", [b"k"], names=[b"x"] * n), 0, 4_096),
    ("count", lambda n: read(b"f", [b"k"], count=n), 0, 4_294_967_295),
    ("data centre", move, 0, 255),
    # one that fills the body by the last byte
    ("body", lambda n: batch(*[insert(b"f", b"k", b"x", b"v" * 65_536)] * 255, insert(b"f", b"k", b"x", b"v" * n)), 0, 62_203),
]
# What isn't bytes, and what is no name of a family.
NO_BYTES: List[Callable[[], object]] = [
    lambda: insert("f", b"k", b"x", b"1"),  # type: ignore[arg-type]
    lambda: delete(b"f", "k", b"x"),  # type: ignore[arg-type]
    lambda: delete(b"f", b"k", bytearray(b"x")),
    lambda: insert(b"f", b"k", b"x", 1),  # type: ignore[arg-type]
    lambda: read(b"f", b"k"),  # type: ignore[arg-type]
    lambda: read(b"f", [b"k"], names=b"x"),  # type: ignore[arg-type]
]
NO_FAMILIES = [b"f-g", b"f ", b"f\n", "ü".encode(), b"f\0"]


class Spelling(unittest.TestCase):
    def test_requests_are_those_of_the_page(self) -> None:
        for place, request in REQUESTS:
            self.assertEqual(request.frame, BLOCKS[place])

    def test_replies_are_those_of_the_page(self) -> None:
        for place, reply in REPLIES:
            frames = Frames()
            frames.feed(BLOCKS[place])
            body = frames.next()
            assert body is not None
            self.assertEqual(self.told(wire.parse(body)), self.told(reply))
            self.assertEqual(framed(reply), BLOCKS[place])
            self.assertIsNone(frames.next())

    def test_each_block_of_the_page_is_looked_at(self) -> None:
        places = [RANGE, *(place for place, _ in REQUESTS), *(place for place, _ in REPLIES)]
        self.assertEqual(sorted(places), list(range(len(BLOCKS))))

    def test_other_changes_end_as_the_page_says(self) -> None:
        row = sized(1, b"f") + sized(2, b"b")
        for change, ending in ENDINGS:
            self.assertIn(f"`{ending}`", PAGE)
            self.assertEqual(change.spelled, row + bytes.fromhex(ending))

    def test_a_range_is_that_of_the_page(self) -> None:
        request = read(b"f", [b"b"], start=b"d", reversed=True, count=1)
        self.assertEqual(request.body, BLOCKS[2][4:-8] + BLOCKS[RANGE])

    def test_lists_are_spelled_as_they_are_given(self) -> None:
        twice = read(b"f", iter([b"b", b"a", b"b"]), names=iter([b"x", b"x"]))
        self.assertEqual(twice.body, bytes.fromhex("02 0166 00000003 000162 000161 000162 00 00000002 000178 000178"))
        two = batch(delete_row(b"f", b"b"), delete_row(b"f", b"a"))
        self.assertEqual(two.body, bytes.fromhex("01 00000002 0166 000162 02 0166 000161 02"))

    @staticmethod
    def told(reply: Reply) -> object:
        """Exceptions are compared by what they are and what they hold."""
        return (type(reply), reply.args) if isinstance(reply, Exception) else reply


class Reading(unittest.TestCase):
    def test_long_replies(self) -> None:
        for reply in LONG[:2]:
            self.assertEqual(wire.parse(spelled(reply)), reply)
        row = {name: b"1" for name in (b"z", b"a", b"m")}
        found = wire.parse(spelled(Read(1, {b"k": row, b"a": {}})))
        assert isinstance(found, Read)
        self.assertEqual((list(found.rows), list(found.rows[b"k"])), ([b"k", b"a"], [b"z", b"a", b"m"]))

    def test_a_cut_frame_is_not_whole(self) -> None:
        for reply in ALL:
            frame = framed(reply)
            for cut in range(len(frame)):
                frames = Frames()
                frames.feed(frame[:cut])
                self.assertIsNone(frames.next())
                frames.feed(frame[cut:])
                self.assertEqual(frames.next(), spelled(reply))

    def test_a_cut_body_is_no_reply_and_a_longer_one_is_none(self) -> None:
        for reply in ALL:
            body = spelled(reply)
            for wrong in [body[:cut] for cut in range(len(body))] + [body + b"\0"]:
                self.assertRaises(ProtocolError, wire.parse, wrong)

    def test_what_is_read_has_one_spelling(self) -> None:
        chance = random.Random(1)
        read_rightly = 0
        for _ in range(8_000):
            body = self.spoilt(chance)
            try:
                reply = wire.parse(body)
            except ProtocolError:
                continue
            self.assertEqual(spelled(reply), body)
            read_rightly += 1
        self.assertGreater(read_rightly, 400)

    @staticmethod
    def spoilt(chance: random.Random) -> bytes:
        """A reply with some bytes changed, or garbage."""
        if chance.random() < 0.3:
            return bytes([chance.choice([0x80, 0x81, 0x82, 0x84, 0x85])]) + chance.randbytes(chance.randrange(40))
        body = bytearray(spelled(chance.choice(ALL)))
        for _ in range(chance.randrange(1, 3)):
            body[chance.randrange(min(len(body), 30))] = chance.choice([0, 1, 2, 0x62, 0xFF])
        return bytes(body)

    def test_what_comes_twice_is_no_reply(self) -> None:
        for row in ("000162 00000000 000162 00000000", "000162 00000002 000178 00000000 000178 00000000"):
            count = "00000001" if "78" in row else "00000002"
            self.assertRaises(ProtocolError, wire.parse, bytes.fromhex(f"82 {0:016x} {count} {row}"))

    def test_a_frame_that_is_too_long_is_told_by_its_length(self) -> None:
        frames = Frames()
        frames.feed(framed(Collected()) + bytes.fromhex("01000001"))
        self.assertEqual(frames.next(), b"\x83")
        self.assertRaises(ProtocolError, frames.next)
        frames = Frames()
        frames.feed(bytes.fromhex("01000000"))
        self.assertIsNone(frames.next())

    def test_a_reply_is_one_to_its_request(self) -> None:
        fitting = {Written: REQUESTS[0][1], Read: REQUESTS[1][1], Collected: REQUESTS[1][1], Moved: REQUESTS[2][1]}
        for _, request in REQUESTS:
            for reply in ALL:
                if isinstance(reply, errors.Refused) or fitting[type(reply)] is request:
                    self.assertIs(type(wire.outcome(request, spelled(reply))), type(reply))
                else:
                    self.assertRaises(ProtocolError, wire.outcome, request, spelled(reply))


class UnderWay(unittest.TestCase):
    def test_whatever_comes_each_request_is_settled_once(self) -> None:
        chance = random.Random(2)
        kinds = set()
        for _ in range(500):
            came: List[Tuple[int, Any]] = []
            exchange = Exchange()
            for number in range(6):
                exchange.begin(chance.choice(REQUESTS)[1], partial(self.note, came, number))
            stream = b"".join(self.frame(chance) for _ in range(6))
            while stream:
                cut = chance.randrange(1, 20)
                exchange.feed(stream[:cut])
                stream = stream[cut:]
            exchange.end()
            self.assertEqual([number for number, _ in came], list(range(6)))
            self.assertRaises(ConnectionLost, exchange.begin, REQUESTS[0][1], came.append)
            kinds |= {type(it) for _, it in came}
            lost = [it.under_way for _, it in came if isinstance(it, ConnectionLost)]
            self.assertEqual(lost, [len(lost)] * len(lost))
        self.assertLessEqual({Written, Read, Moved, Collected, ProtocolError, ConnectionLost}, kinds)

    @staticmethod
    def note(came: List[Tuple[int, Any]], number: int, outcome: Any) -> None:
        came.append((number, outcome))

    @staticmethod
    def frame(chance: random.Random) -> bytes:
        """A reply, or now and then garbage."""
        return framed(chance.choice(ALL)) if chance.random() < 0.9 else chance.randbytes(chance.randrange(12))


class Limits(unittest.TestCase):
    def test_lengths_and_counts(self) -> None:
        for what, made, least, most in LIMITS:
            with self.subTest(what):
                for right in (least, most):
                    made(right)
                for wrong in {least - 1, most + 1} - ({-1} if what != "count" and what != "data centre" else set()):
                    self.assertRaises(ValueError, made, wrong)

    def test_what_is_no_bytes(self) -> None:
        for made in NO_BYTES:
            self.assertRaises(TypeError, made)

    def test_what_is_no_family(self) -> None:
        for family in NO_FAMILIES:
            self.assertRaises(ValueError, delete_row, family, b"k")

    def test_names_or_a_range(self) -> None:
        for more in ({"start": b"a"}, {"finish": b"a"}, {"reversed": True}, {"count": 1}):
            which: Any = more
            self.assertRaises(ValueError, lambda: read(b"f", [b"k"], names=[b"x"], **which))


class Refusals(unittest.TestCase):
    def test_they_are_those_of_the_page(self) -> None:
        listed = {**refusals("## Refusals of a submission"), **refusals("## Frames"), 22: "ClockSpent", 23: "Memory"}
        self.assertIn("`22 ClockSpent`", PAGE)
        self.assertIn("`23 Memory`", PAGE)
        self.assertEqual({number: kind.__name__ for number, kind in errors.REFUSALS.items()}, listed)
        for number, name in listed.items():
            one = refusal(number)
            self.assertEqual((one.number, one.name, str(one)), (number, name, f"refused with {number} {name}"))
            self.assertIs(type(one), getattr(errors, name))

    def test_an_unknown_one_is_refused_with_its_number(self) -> None:
        for number in (0, 9, 21, 24, 29, 65_535):
            one = refusal(number)
            self.assertEqual((type(one), one.number, one.again, one.unsure), (errors.Refused, number, False, False))

    def test_which_may_be_asked_again_and_which_are_unsure(self) -> None:
        known = errors.REFUSALS.values()
        self.assertEqual({kind.number for kind in known if kind.again}, {20, 23, 28})
        self.assertEqual({kind.number for kind in known if kind.unsure}, {20, 22, 23})
        self.assertTrue(Collected.again)

    def test_they_travel(self) -> None:
        some: List[EigerError] = [refusal(20), refusal(999), Collected(), ConnectionLost(3), ProtocolError("why")]
        for error in some:
            again = pickle.loads(pickle.dumps(error))
            self.assertEqual((type(again), str(again), vars(again)), (type(error), str(error), vars(error)))


if __name__ == "__main__":
    unittest.main()
