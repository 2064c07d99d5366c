"""Networks of their own: each node gets one, in which the addresses of the others are those of relays; and small disks.

All nodes have the same file of sites, and so the same addresses. In its own network a node listens at its own, and what stands at the
addresses of the others there is a relay. Networks are the system's network namespaces, each with a loopback alone; who isn't root gets them
in a user namespace, where the system has these."""
import contextlib
import ctypes
import errno
import fcntl
import os
import socket
import struct

LIBC = ctypes.CDLL(None, use_errno=True)
NEW_MOUNTS, NEW_USER, NEW_NET = 0x20000, 0x10000000, 0x40000000
REMOUNT, ALL_BELOW, PRIVATE, DETACH = 0x20, 0x4000, 0x40000, 2
SET_FLAGS, IS_UP, IS_LOOPBACK, IS_RUNNING = 0x8914, 0x1, 0x8, 0x40


def _call(done):
    if done != 0:
        error = ctypes.get_errno()
        raise OSError(error, os.strerror(error))


def _here():
    return os.open("/proc/thread-self/ns/net", os.O_RDONLY)


def enter(network):
    """The calling thread is in this network from now on."""
    _call(LIBC.setns(network, NEW_NET))


@contextlib.contextmanager
def within(network, home):
    """The calling thread is in this network for a while. What is None is no network of its own."""
    if network is None:
        yield
        return
    enter(network)
    try:
        yield
    finally:
        enter(home)


def _raise_loopback():
    with socket.socket(socket.AF_INET, socket.SOCK_DGRAM) as it:
        fcntl.ioctl(it, SET_FLAGS, struct.pack("16sH", b"lo", IS_UP | IS_LOOPBACK | IS_RUNNING))


def _become_user():
    user, group = os.getuid(), os.getgid()
    # a network of others couldn't be entered again
    _call(LIBC.unshare(NEW_USER | NEW_NET))
    for name, text in (("setgroups", "deny"), ("uid_map", f"0 {user} 1"), ("gid_map", f"0 {group} 1")):
        with open(f"/proc/self/{name}", "w", encoding="utf-8") as file:
            file.write(text)
    _raise_loopback()


def _mount(what, where, flags, options=None):
    _call(LIBC.mount(b"eiger", os.fsencode(where), what, flags, options))


def mounts():
    """From now on what is mounted here is seen by this process and its children alone. No other thread may run."""
    _call(LIBC.unshare(NEW_MOUNTS))
    _mount(None, "/", ALL_BELOW | PRIVATE)


def disk(folder, size, again=False):
    """A disk in memory of so many bytes, in a folder; again: it has that size from now on."""
    _mount(b"tmpfs", folder, REMOUNT if again else 0, b"size=%d" % size)


def take_away(folder):
    """The disk in a folder is there no longer."""
    _call(LIBC.umount2(os.fsencode(folder), DETACH))


def _try_become_user():
    """An OSError where this process couldn't become root: it would stay half of it, so a child tries."""
    child = os.fork()
    if child == 0:
        number = errno.EPERM
        try:
            _become_user()
            number = 0
        except OSError as error:
            number = error.errno
        finally:
            os._exit(number)
    _, status = os.waitpid(child, 0)
    if number := os.waitstatus_to_exitcode(status):
        raise OSError(number, os.strerror(number))


def become():
    """Who isn't root becomes so in a namespace of users, if there are such. No other thread may run."""
    if os.geteuid() != 0:
        _try_become_user()
        _become_user()


def networks(count):
    """So many networks, and the one where this is called, as open files. An OSError where the system gives none."""
    home, made = _here(), []
    try:
        for _ in range(count):
            _call(LIBC.unshare(NEW_NET))
            _raise_loopback()
            made.append(_here())
    finally:
        enter(home)
    return made, home
