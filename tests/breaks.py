#!/usr/bin/env python3
"""breaks.py KIND COMMAND..: the command with a standard input whose first bytes come and whose next read does not.

    terminal    a terminal whose other end is closed: EIO
    socket      a connection whose other end is closed with bytes unread: ECONNRESET
    network     a TCP connection that is reset: ECONNRESET
    busy        a pipe that may not be waited for, with nothing more in it yet: EAGAIN

The bytes are a clean command and the beginning of another. Exit status: the command's.
"""
import os
import pty
import socket
import struct
import subprocess
import sys

BYTES = b"\x1b&a10C\x1b&a5"


def terminal():
    given, other = pty.openpty()
    os.write(other, BYTES)
    os.close(other)
    return given


def broken_off(given, other):
    """Of two connected sockets: the bytes come, then the other end is gone with something unread."""
    given.sendall(b"unread")
    other.sendall(BYTES)
    other.close()
    return given.detach()


def network():
    with socket.socket() as door:
        door.bind(("127.0.0.1", 0))
        door.listen()
        given = socket.create_connection(door.getsockname())
        other = door.accept()[0]
    other.setsockopt(socket.SOL_SOCKET, socket.SO_LINGER, struct.pack("ii", 1, 0))  # closed by a reset
    return broken_off(given, other)


def busy():
    given, other = os.pipe()
    os.write(other, BYTES)
    os.set_blocking(given, False)
    os.set_inheritable(other, True)  # and stays open as long as the command runs
    return given


def main(kind, *command):
    given = {"terminal": terminal, "socket": lambda: broken_off(*socket.socketpair()), "network": network, "busy": busy}[kind]()
    return subprocess.run(command, stdin=given, close_fds=kind != "busy").returncode


sys.exit(main(*sys.argv[1:]))
