"""The connection whose calls wait, beside servers that do as a test says."""

import contextlib
import socket
import threading
import time
import unittest
from typing import Any, Iterator, List

import eiger
from eiger import ConnectionLost, ProtocolError, Stamp, Written, batch, delete_row, insert, read
from eiger.errors import refusal
from eiger.wire import Reply, Request

from .fake import SECONDS, framed, requests, serving

CHANGE = insert(b"f", b"b", b"x", b"1")
BIG = b"v" * 65_536


def answering(stream: socket.socket) -> None:
    """Answers the nth request as a write at time n, and a read by the key that it asks for first."""
    for number, body in enumerate(requests(stream)):
        stream.sendall(framed(answer(number, body)))


def answer(number: int, body: bytes) -> Reply:
    if body[0] == 1:
        return Written(number, Stamp(number, 0))
    # behind the kind, the family of one byte, the count and the length
    key = body[9 : 9 + int.from_bytes(body[7:9], "big")]
    return eiger.Read(number, {key: {b"x": BIG}})


@contextlib.contextmanager
def connected(port: int) -> Iterator[eiger.Connection]:
    with eiger.connect("127.0.0.1", port, SECONDS) as connection:
        yield connection


class Plain(unittest.TestCase):
    def test_calls_are_answered_one_by_one(self) -> None:
        with serving(answering) as port, connected(port) as connection:
            self.assertEqual(connection.write(CHANGE), Written(0, Stamp(0, 0)))
            self.assertEqual(connection.read(b"f", [b"key"], names=[b"x"]).rows[b"key"][b"x"], BIG)
            self.assertEqual(connection.write(CHANGE, CHANGE).commit, 2)

    def test_each_call_asks_what_it_says(self) -> None:
        def serve(stream: socket.socket) -> None:
            bodies = requests(stream)
            for reply in replies:
                asked.append(next(bodies))
                stream.sendall(framed(reply))

        asked: List[bytes] = []
        replies: List[Reply] = [Written(2, Stamp(2, 0)), eiger.Read(2, {}), eiger.Read(2, {}), eiger.Moved(1, 6)]
        with serving(serve) as port, connected(port) as connection:
            connection.write(CHANGE, delete_row(b"f", b"a"))
            connection.read(b"f", [b"b"], names=[b"x"])
            connection.read(b"f", [b"b"], start=b"d", finish=b"a", reversed=True, count=1)
            self.assertEqual(connection.move(1), eiger.Moved(1, 6))
        wanted: List[Request[Any]] = [
            batch(CHANGE, delete_row(b"f", b"a")),
            read(b"f", [b"b"], names=[b"x"]),
            read(b"f", [b"b"], start=b"d", finish=b"a", reversed=True, count=1),
            eiger.move(1),
        ]
        self.assertEqual(asked, [request.body for request in wanted])

    def test_replies_in_pieces_of_one_byte(self) -> None:
        def serve(stream: socket.socket) -> None:
            for number, _ in enumerate(requests(stream)):
                for byte in framed(eiger.Read(number, {b"b": {b"x": b"value"}})):
                    stream.sendall(bytes([byte]))

        with serving(serve) as port, connected(port) as connection:
            for number in range(20):
                found = connection.read(b"f", [b"b"])
                self.assertEqual((found.time, found.rows), (number, {b"b": {b"x": b"value"}}))

    def test_a_refusal_and_a_collected_read_are_raised_and_the_connection_goes_on(self) -> None:
        def serve(stream: socket.socket) -> None:
            replies: List[Reply] = [refusal(7), refusal(999), eiger.Collected(), eiger.Read(3, {})]
            for reply, _ in zip(replies, requests(stream)):
                stream.sendall(framed(reply))

        with serving(serve) as port, connected(port) as connection:
            for kind in (eiger.RangeOrder, eiger.Refused, eiger.Collected):
                with self.assertRaises(eiger.EigerError) as raised:
                    connection.read(b"f", [b"b"])
                self.assertIs(type(raised.exception), kind)
            self.assertEqual(connection.read(b"f", [b"b"]).time, 3)

    def test_what_is_wrong_is_not_sent(self) -> None:
        with serving(answering) as port, connected(port) as connection:
            self.assertRaises(ValueError, connection.write)
            self.assertRaises(ValueError, connection.read, b"f", [])
            self.assertRaises(ValueError, connection.move, 256)
            self.assertEqual(connection.write(CHANGE).commit, 0)

    def test_where_nobody_listens(self) -> None:
        with socket.socket() as held:
            held.bind(("127.0.0.1", 0))
            self.assertRaises(OSError, eiger.connect, *held.getsockname(), SECONDS)


class UnderWay(unittest.TestCase):
    def test_many_are_answered_in_order(self) -> None:
        with serving(answering) as port, connected(port) as connection:
            answers = [connection.submit(batch(CHANGE)) for _ in range(5_000)]
            for number in (4_999, 0, 2_500, 0):
                self.assertEqual(answers[number].result().commit, number)

    def test_big_values_both_ways_do_not_block(self) -> None:
        # the server reads nothing while its reply isn't taken, and each way there is more than any buffer holds
        with serving(answering) as port, connected(port) as connection:
            writes, reads = [], []
            for number in range(400):
                writes.append(connection.submit(batch(insert(b"f", b"b", b"x", BIG))))
                reads.append(connection.submit(read(b"f", [b"%d" % number])))
            for number, (written, found) in enumerate(zip(writes, reads)):
                self.assertEqual(written.result().commit, 2 * number)
                self.assertEqual(found.result().rows, {b"%d" % number: {b"x": BIG}})

    def test_done_looks_at_what_has_come(self) -> None:
        def serve(stream: socket.socket) -> None:
            bodies = requests(stream)
            for number in range(2):
                next(bodies)
                go.wait(SECONDS)
                stream.sendall(framed(Written(number, Stamp(number, 0))))

        go = threading.Event()
        with serving(serve) as port, connected(port) as connection:
            answers = [connection.submit(batch(CHANGE)) for _ in range(2)]
            self.assertEqual([it.done() for it in answers], [False, False])
            go.set()
            end = time.monotonic() + SECONDS
            while not answers[1].done() and time.monotonic() < end:
                time.sleep(0.001)
            self.assertEqual([it.done() for it in answers], [True, True])
            self.assertEqual([it.result(0).commit for it in answers], [0, 1])

    def test_a_late_reply_is_told_to_no_other_call(self) -> None:
        def serve(stream: socket.socket) -> None:
            bodies = requests(stream)
            next(bodies)
            go.wait(SECONDS)
            stream.sendall(framed(Written(0, Stamp(0, 0))))
            next(bodies)
            stream.sendall(framed(Written(1, Stamp(1, 0))))

        go = threading.Event()
        with serving(serve) as port, eiger.connect("127.0.0.1", port, 0.05) as connection:
            self.assertRaises(TimeoutError, connection.write, CHANGE)
            late = connection.submit(batch(CHANGE))
            self.assertRaises(TimeoutError, late.result)
            go.set()
            self.assertEqual(late.result(SECONDS).commit, 1)

    def test_nothing_more_is_taken_on_where_nothing_is_taken(self) -> None:
        def serve(_: socket.socket) -> None:
            go.wait(SECONDS)

        go = threading.Event()
        with serving(serve) as port, eiger.connect("127.0.0.1", port, 0.05) as connection:
            answers = []
            with self.assertRaises(TimeoutError):
                for _ in range(10_000):
                    answers.append(connection.submit(batch(insert(b"f", b"b", b"x", BIG))))
            go.set()
            with self.assertRaises(ConnectionLost) as lost:
                answers[0].result(SECONDS)
            self.assertEqual(lost.exception.under_way, len(answers))


class Over(unittest.TestCase):
    def lost(self, answers: List[eiger.Answer[Written]]) -> List[int]:
        """How many were under way, as each of these tells."""
        found = []
        for one in answers:
            for _ in range(2):
                with self.assertRaises(ConnectionLost) as raised:
                    one.result()
            found.append(raised.exception.under_way)
        return found

    def test_the_server_closes_in_the_middle(self) -> None:
        def serve(stream: socket.socket) -> None:
            bodies = requests(stream)
            for number in range(5):
                next(bodies)
            frames = [framed(Written(number, Stamp(number, 0))) for number in range(3)]
            stream.sendall(b"".join(frames)[:-1])

        with serving(serve) as port, connected(port) as connection:
            answers = [connection.submit(batch(CHANGE)) for _ in range(5)]
            self.assertEqual([one.result().commit for one in answers[:2]], [0, 1])
            self.assertEqual(self.lost(answers[2:]), [3, 3, 3])
            with self.assertRaises(ConnectionLost) as raised:
                connection.write(CHANGE)
            self.assertEqual((raised.exception.under_way, raised.exception.unsure), (0, False))

    def test_what_was_answered_before_a_reset_is_told(self) -> None:
        def serve(stream: socket.socket) -> None:
            # what is sent to a socket that is closed with bytes unread fails
            stream.recv(1)
            stream.sendall(framed(refusal(31)))
            stream.close()
            closed.set()

        for change in (CHANGE, insert(b"f", b"b", b"x", BIG)):
            closed = threading.Event()
            with serving(serve) as port, connected(port) as connection:
                answers = [connection.submit(batch(change))]
                closed.wait(SECONDS)
                with contextlib.suppress(ConnectionLost):
                    for _ in range(1_000):
                        answers.append(connection.submit(batch(change)))
                self.assertRaises(eiger.UnknownTag, answers[0].result)
                self.assertEqual(set(self.lost(answers[1:])), {len(answers) - 1})

    def test_the_server_ends_its_side_and_takes_nothing(self) -> None:
        def serve(stream: socket.socket) -> None:
            stream.recv(1)
            stream.shutdown(socket.SHUT_WR)
            go.wait(SECONDS)

        go = threading.Event()
        with serving(serve) as port, connected(port) as connection:
            answers = []
            with self.assertRaises(ConnectionLost) as raised:
                for _ in range(1_000):
                    answers.append(connection.submit(batch(insert(b"f", b"b", b"x", BIG))))
            self.assertEqual(raised.exception.under_way, 0)
            self.assertEqual(set(self.lost(answers)), {len(answers)})
            go.set()

    def test_a_malformed_reply_ends_it(self) -> None:
        for wrong in (b"\0\0\0\0", b"\0\0\0\1\x86", b"\0\0\0\1\x83", b"\1\0\0\1", b"\0\0\0\x03\x85\0\0"):

            def serve(stream: socket.socket) -> None:
                bodies = requests(stream)
                for _ in range(4):
                    next(bodies)
                stream.sendall(framed(Written(0, Stamp(0, 0))) + wrong)
                stream.recv(1)
                closed.set()

            closed = threading.Event()
            with serving(serve) as port, connected(port) as connection:
                answers = [connection.submit(batch(CHANGE)) for _ in range(4)]
                self.assertEqual(answers[0].result().commit, 0)
                self.assertRaises(ProtocolError, answers[1].result)
                self.assertEqual(self.lost(answers[2:]), [2, 2])
                self.assertTrue(closed.wait(SECONDS))

    def test_a_reply_that_nothing_was_asked_for_ends_it(self) -> None:
        def serve(stream: socket.socket) -> None:
            next(requests(stream))
            stream.sendall(framed(Written(0, Stamp(0, 0))) + framed(refusal(23)))
            stream.recv(1)

        with serving(serve) as port, connected(port) as connection:
            self.assertEqual(connection.write(CHANGE).commit, 0)
            with self.assertRaises(ConnectionLost) as raised:
                connection.write(CHANGE)
            self.assertEqual(raised.exception.under_way, 0)
            self.assertIsInstance(raised.exception.__cause__, ProtocolError)

    def test_who_closes_loses_what_is_under_way(self) -> None:
        with serving(answering) as port:
            connection = eiger.connect("127.0.0.1", port, SECONDS)
            answers = [connection.submit(batch(CHANGE)) for _ in range(3)]
            connection.close()
            connection.close()
            self.assertEqual(self.lost(answers), [3, 3, 3])
            self.assertTrue(answers[0].done())
            self.assertRaises(ConnectionLost, connection.read, b"f", [b"b"])

    def test_it_is_an_error_of_connections(self) -> None:
        for lost, told in ((ConnectionLost(0), False), (ConnectionLost(3), True)):
            self.assertIsInstance(lost, ConnectionError)
            self.assertEqual((lost.unsure, lost.again), (told, False))
            self.assertEqual(str(lost), f"the connection is over, with {lost.under_way} requests under way")


if __name__ == "__main__":
    unittest.main()
