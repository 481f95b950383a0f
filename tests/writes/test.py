#!/usr/bin/env python3
"""After a write that failed a program writes nothing more, not even what could be written.

    tests/writes/test.py

Standard output is a socket whose messages have a limit, so that a write of a longer text fails and a shorter one
after it would pass. What arrives has to be what stands before that text, and standard error has to tell the failure.
"""

import socket
import subprocess
from pathlib import Path

PROGRAMS = Path(__file__).resolve().parents[2] / "crates"
TOLD = b"standard output cannot be written\n"


def run(program, text):
    """What arrives, write by write, and what is told."""
    ours, theirs = socket.socketpair(socket.AF_UNIX, socket.SOCK_SEQPACKET)
    ours.settimeout(20)
    theirs.setsockopt(socket.SOL_SOCKET, socket.SO_SNDBUF, 1)
    command = [PROGRAMS / program / "out" / program]
    with subprocess.Popen(command, stdin=subprocess.PIPE, stdout=theirs, stderr=subprocess.PIPE) as process:
        theirs.close()
        process.stdin.write(text)
        process.stdin.close()
        pieces = []
        try:
            while piece := ours.recv(1 << 16):
                pieces.append(piece)
        except TimeoutError:
            process.kill()
            raise
        told = process.stderr.read()
    ours.close()
    return pieces, told


def expect(program, text, printed):
    pieces, told = run(program, text)
    assert b"".join(pieces) == printed, f"{program}: {pieces[-3:]} arrives last"
    assert told == TOLD, f"{program}: {told} is told"


# A side, of 4,011 bytes, passes. The text of both sides, and the destination that two specs share, do not.
long = b"a" * 4000
name = b"refs/heads/" + long
fields = b"line 1: push\n  source       " + name + b"\n  destination  " + name + b"\n  text         "
expect("specs", b"push " + name + b"\nfetch a\n", fields)

starts = b"fetch *:" + long + b"/*\nfetch *:*/" + long + b"\nfetch a:x\nfetch b:x\n"
expect("collisions", starts, b"line 1 and line 2 can both write =")

print("writes: nothing is written after a write that failed, and the failure is told")
