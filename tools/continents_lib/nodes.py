"""The nodes, each a process in a network of its own, and the relays between them."""
import json
import os
import re
import shutil
import signal
import socket
import subprocess
import sys

from eiger import connect

from .places import become, disk, mounts, networks, take_away, within

TOOLS = os.path.dirname(os.path.dirname(os.path.abspath(__file__)))
CLIENTS, PEERS = 7000, 7100
# How large the disk of a node is, where it has one of its own, and how much room is left on it where it is nearly full.
LARGE, ROOM = 1 << 32, 4_096


def _free_ports(count):
    sockets = [socket.create_server(("127.0.0.1", 0)) for _ in range(count)]
    ports = [it.getsockname()[1] for it in sockets]
    for it in sockets:
        it.close()
    return ports


class Other(Exception):
    """Something is other than it should be, so that the run can't go on."""


class Nodes:
    """Nodes in a folder. Where the system gives no networks of their own, they meet without relays, and `why_near` says why; where it gives
    no disks of their own, though these are wanted, `why_shared` says why."""

    def __init__(self, eiger, folder, count, sessions, logs, disks):
        self.eiger, self.folder, self.count, self.sessions, self.logs = eiger, folder, count, sessions, logs
        self.why_near = self.why_shared = None
        self.disks = []
        try:
            become()
            self.networks, self.home = networks(count)
            ports = [*range(CLIENTS, CLIENTS + count), *range(PEERS, PEERS + count)]
        except OSError as error:
            self.networks, self.home, self.why_near = [None] * count, None, error
            ports = _free_ports(2 * count)
        self.clients, self.peers = ports[:count], ports[count:]
        self.processes, self.waiting = [None] * count, [b""] * count
        self.relay = None
        self._write()
        if disks:
            self._mount()

    def _mount(self):
        try:
            mounts()
            for dc in range(self.count):
                os.mkdir(f"{self.folder}/data.{dc}")
                disk(f"{self.folder}/data.{dc}", LARGE)
                self.disks.append(f"{self.folder}/data.{dc}")
        except OSError as error:
            self.why_shared = error

    def _write(self):
        sites = [
            {"clients": f"127.0.0.1:{client}", "peers": f"127.0.0.1:{peer}", "sessions": self.sessions}
            for client, peer in zip(self.clients, self.peers)
        ]
        with open(f"{self.folder}/sites.json", "w", encoding="utf-8") as file:
            json.dump({"shards": 2, "families": ["f"], "sites": sites}, file)
        with open(f"{self.folder}/secret", "wb") as file:
            file.write(os.urandom(32))

    def relays(self, seconds):
        """Starts the relays. Between each two nodes bytes take so many seconds one way."""
        if self.why_near:
            return
        peers = [("127.0.0.1", port) for port in self.peers]
        words = json.dumps({"networks": self.networks, "home": self.home, "peers": peers, "seconds": seconds})
        self.relay = subprocess.Popen(
            [sys.executable, "-B", "-m", "continents_lib.relay", words],
            cwd=TOOLS,
            stdin=subprocess.PIPE,
            stdout=subprocess.PIPE,
            pass_fds=[*self.networks, self.home],
            text=True,
        )
        if self.relay.stdout.readline() != "ready\n":
            raise Other("the relays didn't start")

    def way(self, what, one, other):
        """Changes what is between one node and another that it calls: cut, heal, stall or flow. Gives how many connections there were."""
        self.relay.stdin.write(f"{what} {one} {other}\n")
        self.relay.stdin.flush()
        connections = self.relay.stdout.readline()
        if not connections:
            raise Other("the relays ended")
        return int(connections)

    def words(self, dc):
        """The words of a node's command line, but for its log."""
        return ["node", f"{self.folder}/sites.json", "--dc", str(dc), "--secret", f"{self.folder}/secret"]

    def start(self, dc):
        words = [self.eiger, *self.words(dc)]
        if self.logs:
            words += ["--data", f"{self.folder}/data.{dc}"]
        with open(f"{self.folder}/told.{dc}", "ab") as told, within(self.networks[dc], self.home):
            self.processes[dc] = subprocess.Popen(words, stdout=subprocess.PIPE, stderr=told)
        os.set_blocking(self.processes[dc].stdout.fileno(), False)
        self.waiting[dc] = b""

    def serves(self, dc):
        """Whether a node said that it listens."""
        self.waiting[dc] += self.processes[dc].stdout.read() or b""
        return self.waiting[dc] == f"listening {self.clients[dc]}\n".encode()

    def has_ended(self, dc):
        return self.processes[dc].poll() is not None

    def ends_within(self, dc, seconds):
        """Whether a node ends within so many seconds."""
        try:
            self.processes[dc].wait(seconds)
        except subprocess.TimeoutExpired:
            return False
        return True

    def kill(self, dc):
        """Kills a node that runs."""
        self.end(dc)
        status = self.processes[dc].returncode
        if status != -signal.SIGKILL:
            raise Other(f"node {dc} ended with status {status} before it was killed, and told:\n{self.told(dc)}")

    def end(self, dc):
        """The node runs no longer."""
        self.processes[dc].kill()
        self.processes[dc].wait()
        self.processes[dc].stdout.close()

    def pause(self, dc):
        self.processes[dc].send_signal(signal.SIGSTOP)

    def resume(self, dc):
        self.processes[dc].send_signal(signal.SIGCONT)

    def full(self, dc):
        """There is little room left on the disk of a node."""
        folder = f"{self.folder}/data.{dc}"
        room = os.statvfs(folder)
        disk(folder, (room.f_blocks - room.f_bfree) * room.f_frsize + ROOM, again=True)

    def empty(self, dc):
        disk(f"{self.folder}/data.{dc}", LARGE, again=True)

    def connect(self, dc, seconds):
        """A client near a node."""
        with within(self.networks[dc], self.home):
            return connect("127.0.0.1", self.clients[dc], seconds)

    def told(self, dc):
        """The last lines that a node told."""
        with open(f"{self.folder}/told.{dc}", encoding="utf-8", errors="replace") as told:
            return "".join(told.readlines()[-5:])

    def log(self, dc):
        """The file of a node's log."""
        return f"{self.folder}/data.{dc}/log"

    def size(self, dc):
        """How many bytes of memory a node holds, and how many its log has. No memory where it doesn't run."""
        try:
            with open(f"/proc/{self.processes[dc].pid}/status", encoding="ascii") as status:
                held = re.search(r"^VmRSS:\s+(\d+) kB", status.read(), re.M)
        except OSError:
            held = None
        return 1024 * int(held[1]) if held else 0, os.path.getsize(self.log(dc)) if self.logs else 0

    def close(self):
        """Ends all. Logs stay in their folders."""
        for dc, process in enumerate(self.processes):
            if process is not None:
                self.end(dc)
        if self.relay is not None:
            self.relay.kill()
            self.relay.wait()
        for dc, folder in enumerate(self.disks):
            log, kept = self.log(dc), f"{self.folder}/log.{dc}"
            if os.path.exists(log):
                shutil.copy(log, kept)
            take_away(folder)
            if os.path.exists(kept):
                os.rename(kept, log)


class Lone(Nodes):
    """One server of many clients in the place of the nodes."""

    def words(self, dc):
        return ["serve", "--port", str(self.clients[dc]), "--sessions", str(self.sessions), "--concurrent"]
