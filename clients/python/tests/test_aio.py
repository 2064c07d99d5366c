"""The connection of asyncio, beside servers that do as a test says."""

import asyncio
import socket
import threading
import unittest
from typing import Any, Awaitable, List

import eiger.aio
from eiger import ConnectionLost, ProtocolError, Stamp, Written, insert
from eiger.errors import refusal
from eiger.wire import Reply

from .fake import SECONDS, framed, requests, serving
from .test_connection import BIG, CHANGE, answering


async def soon(waiting: Awaitable[Any]) -> Any:
    return await asyncio.wait_for(waiting, SECONDS)


def at_once(waiting: List[Awaitable[Any]]) -> Awaitable[Any]:
    """What each comes to, exceptions too."""
    return soon(asyncio.gather(*waiting, return_exceptions=True))


class Asynchronous(unittest.IsolatedAsyncioTestCase):
    async def asyncSetUp(self) -> None:
        # else each task that begins costs a look at the stack
        asyncio.get_running_loop().set_debug(False)


class Plain(Asynchronous):
    async def test_calls_are_answered_one_by_one(self) -> None:
        with serving(answering) as port:
            async with await soon(eiger.aio.connect("127.0.0.1", port)) as connection:
                self.assertEqual(await soon(connection.write(CHANGE)), Written(0, Stamp(0, 0)))
                found = await soon(connection.read(b"f", [b"key"], names=[b"x"]))
                self.assertEqual((found.time, found.rows), (1, {b"key": {b"x": BIG}}))

    async def test_each_reply_is_told(self) -> None:
        def serve(stream: socket.socket) -> None:
            replies: List[Reply] = [eiger.Moved(1, 6), eiger.Collected(), refusal(26), eiger.Moved(0, 7)]
            for reply, _ in zip(replies, requests(stream)):
                for byte in framed(reply):
                    stream.sendall(bytes([byte]))

        with serving(serve) as port:
            async with await soon(eiger.aio.connect("127.0.0.1", port)) as connection:
                self.assertEqual(await soon(connection.move(1)), eiger.Moved(1, 6))
                with self.assertRaises(eiger.Collected):
                    await soon(connection.read(b"f", [b"b"], start=b"a", reversed=True, count=3))
                with self.assertRaises(eiger.AlreadyHome):
                    await soon(connection.move(1))
                self.assertEqual(await soon(connection.move(0)), eiger.Moved(0, 7))

    async def test_where_nobody_listens(self) -> None:
        with socket.socket() as held:
            held.bind(("127.0.0.1", 0))
            with self.assertRaises(OSError):
                await soon(eiger.aio.connect(*held.getsockname()))


class AtOnce(Asynchronous):
    async def test_many_are_sent_as_they_began(self) -> None:
        with serving(answering) as port:
            async with await soon(eiger.aio.connect("127.0.0.1", port)) as connection:
                came = await at_once([connection.write(CHANGE) for _ in range(2_000)])
                self.assertEqual([one.commit for one in came], list(range(2_000)))

    async def test_none_overtakes_those_that_wait_for_room(self) -> None:
        async def twice() -> "List[Written]":
            return [await connection.write(change) for _ in range(2)]

        change = insert(b"f", b"b", b"x", BIG)
        with serving(answering) as port:
            async with await soon(eiger.aio.connect("127.0.0.1", port)) as connection:
                came = await at_once([twice() for _ in range(300)])
                self.assertEqual([first.commit for first, _ in came], list(range(300)))
                self.assertEqual(sorted(second.commit for _, second in came), list(range(300, 600)))

    async def test_big_values_both_ways_do_not_block(self) -> None:
        with serving(answering) as port:
            async with await soon(eiger.aio.connect("127.0.0.1", port)) as connection:
                waiting: List[Awaitable[Any]] = []
                for number in range(200):
                    waiting.append(connection.write(insert(b"f", b"b", b"x", BIG)))
                    waiting.append(connection.read(b"f", [b"%d" % number]))
                came = await at_once(waiting)
                for number in range(200):
                    self.assertEqual(came[2 * number].commit, 2 * number)
                    self.assertEqual(came[2 * number + 1].rows, {b"%d" % number: {b"x": BIG}})

    async def test_who_is_cancelled_shifts_no_answers(self) -> None:
        def serve(stream: socket.socket) -> None:
            bodies = requests(stream)
            for number in range(4):
                next(bodies)
            go.wait(SECONDS)
            for number in range(4):
                stream.sendall(framed(Written(number, Stamp(number, 0))))

        go = threading.Event()
        with serving(serve) as port:
            async with await soon(eiger.aio.connect("127.0.0.1", port)) as connection:
                tasks = [asyncio.create_task(connection.write(CHANGE)) for _ in range(4)]
                await asyncio.sleep(0.02)
                tasks[1].cancel()
                go.set()
                came = await at_once(list(tasks))
                self.assertIsInstance(came[1], asyncio.CancelledError)
                self.assertEqual([came[number].commit for number in (0, 2, 3)], [0, 2, 3])

    async def test_who_is_cancelled_before_it_is_sent_is_not_sent(self) -> None:
        def serve(stream: socket.socket) -> None:
            go.wait(SECONDS)
            answering(stream)

        go = threading.Event()
        with serving(serve) as port:
            async with await soon(eiger.aio.connect("127.0.0.1", port)) as connection:
                tasks = [asyncio.create_task(connection.write(insert(b"f", b"b", b"x", BIG))) for _ in range(500)]
                await asyncio.sleep(0.05)
                for cancelled in tasks[400:450]:
                    cancelled.cancel()
                go.set()
                came = await at_once(list(tasks))
                left = [one.commit for number, one in enumerate(came) if not 400 <= number < 450]
                self.assertEqual(left, list(range(450)))


class Over(Asynchronous):
    def lost(self, came: List[Any]) -> List[int]:
        """How many were under way, as each of these tells."""
        for one in came:
            self.assertIsInstance(one, ConnectionLost)
        return [one.under_way for one in came]

    async def test_the_server_closes_in_the_middle(self) -> None:
        def serve(stream: socket.socket) -> None:
            bodies = requests(stream)
            for _ in range(5):
                next(bodies)
            frames = [framed(Written(number, Stamp(number, 0))) for number in range(3)]
            stream.sendall(b"".join(frames)[:-1])

        with serving(serve) as port:
            async with await soon(eiger.aio.connect("127.0.0.1", port)) as connection:
                came = await at_once([connection.write(CHANGE) for _ in range(5)])
                self.assertEqual([one.commit for one in came[:2]], [0, 1])
                self.assertEqual(self.lost(came[2:]), [3, 3, 3])
                self.assertEqual(self.lost(await at_once([connection.write(CHANGE)])), [0])

    async def test_a_malformed_reply_ends_it(self) -> None:
        def serve(stream: socket.socket) -> None:
            bodies = requests(stream)
            for _ in range(3):
                next(bodies)
            stream.sendall(b"\0\0\0\1\x86")
            stream.recv(1)
            closed.set()

        closed = threading.Event()
        with serving(serve) as port:
            async with await soon(eiger.aio.connect("127.0.0.1", port)) as connection:
                came = await at_once([connection.write(CHANGE) for _ in range(3)])
                self.assertIsInstance(came[0], ProtocolError)
                self.assertEqual(self.lost(came[1:]), [2, 2])
                self.assertTrue(await soon(asyncio.to_thread(closed.wait, SECONDS)))

    async def test_the_server_ends_its_side_and_takes_nothing(self) -> None:
        def serve(stream: socket.socket) -> None:
            stream.recv(1)
            stream.shutdown(socket.SHUT_WR)
            go.wait(SECONDS)

        go = threading.Event()
        with serving(serve) as port:
            async with await soon(eiger.aio.connect("127.0.0.1", port)) as connection:
                came = await at_once([connection.write(insert(b"f", b"b", b"x", BIG)) for _ in range(500)])
                self.lost(came)
                go.set()

    async def test_closing_fails_who_waits(self) -> None:
        def serve(_: socket.socket) -> None:
            go.wait(SECONDS)

        go = threading.Event()
        with serving(serve) as port:
            connection = await soon(eiger.aio.connect("127.0.0.1", port))
            tasks = [asyncio.create_task(connection.write(insert(b"f", b"b", b"x", BIG))) for _ in range(500)]
            await asyncio.sleep(0.05)
            # before the server has taken anything
            await asyncio.wait_for(connection.close(), SECONDS / 2)
            await soon(connection.close())
            go.set()
            counts = self.lost(await at_once(list(tasks)))
            # those that were sent, as far as there was room, and those that waited for room
            sent = counts[0]
            self.assertTrue(0 < sent < 500)
            self.assertEqual(counts, [sent] * sent + [0] * (500 - sent))
            self.assertEqual(self.lost(await at_once([connection.move(1)])), [0])


if __name__ == "__main__":
    unittest.main()
