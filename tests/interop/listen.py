#!/usr/bin/env python3
"""Records what one client writes.

    listen.py FILE COMMAND [ARGUMENT..]

listens on a free port of 127.0.0.1, runs COMMAND with the arguments and the port after them, accepts one
connection and writes every octet the client sends to FILE. It answers just enough for the client to go on:
CONNECTED, a RECEIPT for each receipt header, and one MESSAGE for each subscription. The MESSAGE has the message-id
message-1, message-2 and so on, or what the SUBSCRIBE frame's header `label` has in hexadecimal, put there as it is.
The listener is lenient where the library is strict: a header line ends at octet 10 and is split at its first colon.
"""

import select
import socket
import subprocess
import sys
import time

LIMIT = 20  # seconds until a client that hangs is given up


def take(octets):
    """The first frame of the octets as (command, headers, rest), or None while it is incomplete."""
    octets = octets.lstrip(b"\r\n")
    head, blank, rest = octets.replace(b"\r\n", b"\n").partition(b"\n\n")
    if not blank:
        return None
    # Only the head is read with its line ends normalised; the body is taken from the octets as they came.
    ends = [(octets.find(end), len(end)) for end in (b"\n\n", b"\n\r\n") if octets.find(end) >= 0]
    at, length = min(ends)
    body = octets[at + length:]
    lines = head.split(b"\n")
    headers = {}
    for line in lines[1:]:
        name, _, value = line.partition(b":")
        headers.setdefault(name, value)
    if headers.get(b"content-length", b"").isdigit():
        size = int(headers[b"content-length"])
    else:
        size = body.find(b"\0")
    if size < 0 or len(body) <= size:
        return None
    return lines[0], headers, body[size + 1:]


def frame(command, headers, body=b""):
    lines = [command] + [name + b":" + value for name, value in headers]
    return b"\n".join(lines) + b"\n\n" + body + b"\0"


class Server:
    def __init__(self):
        self.version = b"1.0"
        self.messages = 0
        self.interval = 0.0  # seconds between the heart-beats of the server; 0: none

    def answers(self, command, headers):
        if command in (b"CONNECT", b"STOMP"):
            yield self.connected(headers)
            return
        if b"receipt" in headers:
            yield frame(b"RECEIPT", [(b"receipt-id", headers[b"receipt"])])
        if command == b"SUBSCRIBE":
            yield self.message(headers)

    def connected(self, headers):
        known = headers.get(b"accept-version", b"").split(b",")
        shared = [version for version in (b"1.2", b"1.1", b"1.0") if version in known]
        answer = [(b"session", b"session-1")]
        if shared:
            self.version = shared[0]
            answer.append((b"version", self.version))
        if self.version != b"1.0":
            sends, _, wants = headers.get(b"heart-beat", b"0,0").partition(b",")
            answer.append((b"heart-beat", wants + b"," + sends))
            self.interval = int(wants) / 1000 / 2
        return frame(b"CONNECTED", answer)

    def message(self, headers):
        self.messages += 1
        number = b"%d" % self.messages
        name = bytes.fromhex(headers[b"label"].decode()) if b"label" in headers else b"message-" + number
        answer = [(b"destination", headers.get(b"destination", b"")), (b"message-id", name)]
        if b"id" in headers:
            answer.append((b"subscription", headers[b"id"]))
        if self.version == b"1.2":
            answer.append((b"ack", b"ack\\c" + number))
        return frame(b"MESSAGE", answer, b"delivered")


def serve(connection, record):
    server, waiting, ends = Server(), b"", time.monotonic() + LIMIT
    while time.monotonic() < ends:
        ready, _, _ = select.select([connection], [], [], server.interval or 1.0)
        try:
            if not ready:
                if server.interval:
                    connection.sendall(b"\n")
                continue
            octets = connection.recv(65536)
            if not octets:
                return True
            record.write(octets)
            waiting += octets
            while (taken := take(waiting)) is not None:
                command, headers, waiting = taken
                for answer in server.answers(command, headers):
                    connection.sendall(answer)
        except ConnectionError:
            return True
    return False


def main():
    with socket.create_server(("127.0.0.1", 0)) as listener, open(sys.argv[1], "wb") as record:
        listener.settimeout(LIMIT)
        client = subprocess.Popen(sys.argv[2:] + [str(listener.getsockname()[1])])
        try:
            connection, _ = listener.accept()
            with connection:
                done = serve(connection, record)
            status = client.wait(timeout=LIMIT)
        except (TimeoutError, subprocess.TimeoutExpired):
            done, status = False, 1
        finally:
            if client.poll() is None:
                client.kill()
    sys.exit(0 if done and status == 0 else 1)


if __name__ == "__main__":
    main()
