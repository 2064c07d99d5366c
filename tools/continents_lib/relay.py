"""Relays between nodes, in a process of their own: what one node says to another comes late, or not at all for a while.

    python3 -m continents_lib.relay JSON

has one for each ordered pair of nodes. It listens in the network of the one that calls, at the address of the other, and calls that in its
own network. Lines on standard input change it: `cut I J` closes the connections that I made to J, and no new one comes about until
`heal I J`; from `stall I J` on nothing passes on these, either way, and nothing is lost, until `flow I J`. It answers each with a line
that tells how many connections there were. It ends with its input."""
import asyncio
import collections
import json
import os
import socket
import sys

from .places import within

PIECE, MOST = 65_536, 64_000_000


class Lane:
    """One direction of a connection: what is read is written after the delay, and while the way is stalled not at all."""

    def __init__(self, way, reader, writer):
        self.way, self.reader, self.writer = way, reader, writer
        self.waiting, self.size = collections.deque(), 0
        self.changed = asyncio.Condition()

    async def carry(self):
        await asyncio.gather(self.read_all(), self.write_all())

    async def read_all(self):
        piece = b"."
        while piece:
            piece = await self.reader.read(PIECE)
            async with self.changed:
                await self.changed.wait_for(lambda: self.size < MOST)
                self.size += len(piece)
                self.waiting.append((asyncio.get_running_loop().time() + self.way.seconds, piece))
                self.changed.notify_all()

    async def write_all(self):
        while True:
            async with self.changed:
                await self.changed.wait_for(lambda: self.waiting)
                due, piece = self.waiting.popleft()
            await asyncio.sleep(due - asyncio.get_running_loop().time())
            await self.way.flowing.wait()
            if not piece:
                self.writer.write_eof()
                return
            self.writer.write(piece)
            await self.writer.drain()
            async with self.changed:
                self.size -= len(piece)
                self.changed.notify_all()


class Way:
    """What is between a node that calls and the one that it calls."""

    def __init__(self, seconds, call):
        self.seconds, self.call = seconds, call
        self.is_cut = False
        self.flowing = asyncio.Event()
        self.flowing.set()
        self.writers, self.made = set(), 0

    async def accepted(self, reader, writer):
        """Has a connection go on to the other node."""
        if self.is_cut:
            writer.transport.abort()
            return
        self.writers.add(writer)
        ends = [writer]
        try:
            await asyncio.sleep(self.seconds)
            there, back = await self.call()
            ends.append(back)
            self.writers.add(back)
            self.made += 1
            await asyncio.gather(Lane(self, reader, back).carry(), Lane(self, there, writer).carry())
        except OSError:
            pass
        finally:
            self.made -= len(ends) - 1
            for end in ends:
                self.writers.discard(end)
                end.transport.abort()

    def change(self, what):
        """Gives how many connections there were."""
        made = self.made
        if what == "cut":
            self.is_cut = True
            for writer in list(self.writers):
                writer.transport.abort()
        elif what == "heal":
            self.is_cut = False
        elif what == "stall":
            self.flowing.clear()
        elif what == "flow":
            self.flowing.set()
        return made


def listener(network, home, address):
    with within(network, home):
        return socket.create_server(address)


def caller(network, home, address):
    """What connects to an address in a network."""

    async def call():
        with within(network, home):
            stream = socket.socket()
        stream.setblocking(False)
        try:
            await asyncio.get_running_loop().sock_connect(stream, address)
        except OSError:
            stream.close()
            raise
        stream.setsockopt(socket.IPPROTO_TCP, socket.TCP_NODELAY, 1)
        return await asyncio.open_connection(sock=stream)

    return call


async def serve(networks, home, peers, seconds):
    """Has all ways, until its input ends."""
    ways, servers = {}, []
    for one, network in enumerate(networks):
        for other, address in enumerate(peers):
            if one != other:
                way = Way(seconds[one][other], caller(networks[other], home, tuple(address)))
                ways[one, other] = way
                servers.append(await asyncio.start_server(way.accepted, sock=listener(network, home, tuple(address))))
    commands = asyncio.StreamReader()
    await asyncio.get_running_loop().connect_read_pipe(lambda: asyncio.StreamReaderProtocol(commands), sys.stdin)
    print("ready", flush=True)
    while line := await commands.readline():
        what, one, other = line.decode().split()
        print(ways[int(one), int(other)].change(what), flush=True)
    os._exit(0)


if __name__ == "__main__":
    asyncio.run(serve(**json.loads(sys.argv[1])))
