#!/usr/bin/env python3
"""Makes a log of a captured stream.

    with_messages.py STREAM..

writes, beside each NAME.stream in which the client settles a message with ACK or NACK, NAME.log: the same octets,
and after each SUBSCRIBE frame the MESSAGE frame that `listen.py` answered it with. What the listener answers
depends on the client's frames alone, so these frames are made again by its own code.
"""

import pathlib
import sys

sys.dont_write_bytecode = True
from listen import Server, take


def log_of(stream):
    """The octets of the log, and whether the client settles a message."""
    server, log, settles = Server(), b"", False
    while (taken := take(stream)) is not None:
        command, headers, rest = taken
        log += stream[:len(stream) - len(rest)]
        log += b"".join(answer for answer in server.answers(command, headers) if answer.startswith(b"MESSAGE\n"))
        settles = settles or command in (b"ACK", b"NACK")
        stream = rest
    return log + stream, settles


def main():
    for name in sys.argv[1:]:
        path = pathlib.Path(name)
        log, settles = log_of(path.read_bytes())
        if settles:
            path.with_suffix(".log").write_bytes(log)


main()
