#!/usr/bin/env python3
"""The runs of tests/faults/run that need sockets, or a pipe that does not wait: sockets.py KIND PROGRAM INPUT OUT ERR
writes to OUT and ERR what the program writes.

A program with no signal handler has a read or a write interrupted (EINTR) in few ways. One is a socket with a time
limit: a call that waits there is interrupted when the program is stopped and goes on."""

import os
import signal
import socket
import struct
import subprocess
import sys
import time

KIND, PROGRAM, INPUT, OUT, ERR = sys.argv[1:]
LINES = open(INPUT, "rb").read()
HOUR = struct.pack("ll", 3600, 0)


def waits(process):
    """Until the program sleeps in a call, or has ended."""
    while process.poll() is None:
        with open("/proc/%d/stat" % process.pid) as stat:
            if stat.read().rsplit(")", 1)[1].split()[0] == "S":
                break
        time.sleep(0.01)
    time.sleep(0.1)


def interrupt(process):
    for _ in range(5):
        waits(process)
        process.send_signal(signal.SIGSTOP)
        time.sleep(0.05)
        process.send_signal(signal.SIGCONT)


def send(to, lines):
    """A program that has ended takes nothing."""
    try:
        to.sendall(lines)
    except BrokenPipeError:
        pass


def read_interrupted():
    ours, theirs = socket.socketpair()
    theirs.setsockopt(socket.SOL_SOCKET, socket.SO_RCVTIMEO, HOUR)
    with open(OUT, "wb") as out, open(ERR, "wb") as err:
        process = subprocess.Popen([PROGRAM], stdin=theirs, stdout=out, stderr=err)
        theirs.close()
        half = len(LINES) // 2
        interrupt(process)
        send(ours, LINES[:half])
        interrupt(process)
        send(ours, LINES[half:])
        ours.close()
        process.wait()


def fill(theirs):
    """As many bytes as it takes; how many that are."""
    theirs.setblocking(False)
    filled = 0
    try:
        while True:
            filled += theirs.send(bytes(64))
    except BlockingIOError:
        theirs.setblocking(True)
        return filled


def write_interrupted(full=False):
    """A program that writes little waits only where its socket is full beforehand."""
    ours, theirs = socket.socketpair()
    theirs.setsockopt(socket.SOL_SOCKET, socket.SO_SNDTIMEO, HOUR)
    theirs.setsockopt(socket.SOL_SOCKET, socket.SO_SNDBUF, 4608)
    before = fill(theirs) if full else 0
    with open(INPUT, "rb") as lines, open(OUT, "wb") as out, open(ERR, "wb") as err:
        process = subprocess.Popen([PROGRAM], stdin=lines, stdout=theirs, stderr=err)
        theirs.close()
        interrupt(process)
        taken = b""
        while True:
            got = ours.recv(65536)
            if not got:
                break
            taken += got
        out.write(taken[before:])
        process.wait()


def read_fails():
    get, put = os.pipe()
    os.set_blocking(get, False)
    os.write(put, LINES)
    with open(OUT, "wb") as out, open(ERR, "wb") as err:
        subprocess.run([PROGRAM], stdin=get, stdout=out, stderr=err)
    os.close(put)


KINDS = {
    "read-interrupted": read_interrupted,
    "write-interrupted": write_interrupted,
    "full-write-interrupted": lambda: write_interrupted(full=True),
    "read-fails": read_fails,
}
KINDS[KIND]()
