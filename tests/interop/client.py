#!/usr/bin/env python3
"""stomp.py writes a session: client.py CASE PORT, the cases are those of `capture`."""

import os
import queue
import sys
import time

os.environ["STOMP_SKIP_HOSTNAME_SCAN"] = "1"
import stomp

CASE, PORT = sys.argv[1], int(sys.argv[2])
AT = [("127.0.0.1", PORT)]
ESCAPED = "a:b\\c\nd\re é"
BODY = "zero \0 then é".encode()


class Messages(stomp.ConnectionListener):
    def __init__(self):
        self.taken = queue.Queue()

    def on_message(self, frame):
        self.taken.put(frame.headers)

    def on_receipt(self, frame):
        self.taken.put(frame.headers)

    def next(self, name):
        while True:
            headers = self.taken.get(timeout=10)
            if name in headers:
                return headers


def opened(made, **options):
    messages = Messages()
    made.set_listener("messages", messages)
    made.connect(wait=True, **options)
    return made, messages


# What ACK and NACK name a message by: its headers, in the order in which ack() and nack() take them.
NAMED = {"1.1": ("message-id", "subscription"), "1.2": ("ack",)}


def settle(client, call, message, **options):
    call(*(message[name] for name in NAMED[client.version]), **options)


def whole(client, messages, pause=0.0, more=None):
    client.subscribe("/queue/a", id="0", ack="client-individual", receipt="s0")
    first = messages.next("message-id")
    client.subscribe("/queue/b", id="sub:1", ack="client")
    second = messages.next("message-id")
    client.begin("tx1")
    client.send("/queue/a", BODY, content_type="application/octet-stream",
                headers={"transaction": "tx1", "note": ESCAPED, "empty": "", **(more or {})})
    time.sleep(pause)
    client.send("/queue/é", "text é", headers={"transaction": "tx1", "naïve": "ü"})
    settle(client, client.ack, first, transaction="tx1")
    client.commit("tx1", receipt="c1")
    messages.next("receipt-id")
    settle(client, client.nack, second)
    client.begin("tx2")
    client.send("/queue/a", "", transaction="tx2")
    client.abort("tx2")
    client.unsubscribe("sub:1")
    client.unsubscribe("0", receipt="u0")
    time.sleep(pause)
    client.disconnect(receipt="bye")


def session10(client, messages):
    client.subscribe("/queue/a", ack="client")
    first = messages.next("message-id")
    client.begin("tx1")
    client.send("/queue/a", BODY, headers={"transaction": "tx1", "note": "plain é"})
    client.ack(first["message-id"], transaction="tx1")
    client.commit("tx1")
    client.unsubscribe(destination="/queue/a")
    client.disconnect(receipt="bye")


def session11(client, messages):
    client.subscribe("/queue/a", id="0", ack="client")
    first = messages.next("message-id")
    client.begin("tx1")
    client.send("/queue/a", BODY, headers={"transaction": "tx1", "note": "a:b\\c\nd é"})
    client.ack(first["message-id"], "0", transaction="tx1")
    client.commit("tx1")
    client.unsubscribe("0")
    client.disconnect(receipt="bye")


def labels11(client, messages, labels):
    for number, label in enumerate(labels):
        client.subscribe("/queue/a", id=str(number), ack="client", headers={"label": label.hex()})
        settle(client, client.ack, messages.next("message-id"))
    client.disconnect(receipt="bye")


def host11(**options):
    return stomp.Connection11(AT, vhost="localhost", **options)


if CASE == "python-12":
    whole(*opened(stomp.Connection12(AT)))
elif CASE == "python-12-heart-beat":
    whole(*opened(stomp.Connection12(AT, vhost="localhost", heartbeats=(200, 300)),
                  username="user", passcode="secret", with_connect_command=True), pause=0.7)
elif CASE == "python-12-no-length":
    made = stomp.Connection12(AT, auto_content_length=False)
    client, _ = opened(made)
    client.send("/queue/a", "without a length", headers={"note": "n"})
    client.send("/queue/a", BODY)
    client.send("/queue/a", "after it")
    client.disconnect(receipt="bye")
elif CASE == "python-12-passcode":
    client, _ = opened(stomp.Connection12(AT), username="user", passcode="a:b")
    client.disconnect(receipt="bye")
elif CASE == "python-12-passcode-connect":
    client, _ = opened(stomp.Connection12(AT), username="user", passcode="a:b", with_connect_command=True)
    client.disconnect(receipt="bye")
elif CASE == "python-12-passcode-backslash":
    client, _ = opened(stomp.Connection12(AT), username="user", passcode="a\\b")
    client.disconnect(receipt="bye")
elif CASE == "python-12-passcode-backslash-connect":
    client, _ = opened(stomp.Connection12(AT), username="user", passcode="a\\b", with_connect_command=True)
    client.disconnect(receipt="bye")
elif CASE == "python-12-passcode-escaped":
    client, _ = opened(stomp.Connection12(AT), username="user", passcode="a\\cb\\\\c")
    client.disconnect(receipt="bye")
elif CASE == "python-12-name":
    client, _ = opened(stomp.Connection12(AT))
    client.send("/queue/a", "text", headers={"a:b": "c"})
    client.disconnect(receipt="bye")
elif CASE == "python-12-transaction":
    client, _ = opened(stomp.Connection12(AT))
    made = client.begin()
    client.send("/queue/a", "text", transaction=made)
    client.commit(made)
    client.disconnect(receipt="bye")
elif CASE == "python-11":
    session11(*opened(stomp.Connection11(AT)))
elif CASE == "python-11-host":
    session11(*opened(stomp.Connection11(AT, vhost="localhost")))
elif CASE == "python-11-life":
    whole(*opened(host11()), more={"last": "e\r"})
elif CASE == "python-11-life-no-host":
    whole(*opened(stomp.Connection11(AT)), more={"last": "e\r"})
elif CASE == "python-11-life-heart-beat":
    whole(*opened(host11(heartbeats=(200, 300)), username="user", passcode="a:b", with_connect_command=True),
          pause=0.7, more={"last": "e\r"})
elif CASE == "python-11-labels":
    labels11(*opened(host11()), [b"m\\c1", b"m\\\\c2", b"m\\n3", b"m\r4", "mé5".encode(), b"m\\\\6", b"m" * 32])
elif CASE == "python-11-label-return":
    labels11(*opened(host11()), [b"m1\r"])
elif CASE == "python-11-passcode":
    client, _ = opened(host11(), username="user", passcode="a:b")
    client.disconnect(receipt="bye")
elif CASE == "python-11-name":
    client, _ = opened(host11())
    client.send("/queue/a", "text", headers={"a\rb": "c"})
    client.send("/queue/a", "text", headers={"a:b": "c"})
    client.disconnect(receipt="bye")
elif CASE == "python-11-transaction":
    client, _ = opened(host11())
    made = client.begin()
    client.send("/queue/a", "text", transaction=made)
    client.commit(made)
    client.disconnect(receipt="bye")
elif CASE == "python-10":
    session10(*opened(stomp.Connection10(AT)))
else:
    sys.exit(f"client.py: no case {CASE}")
time.sleep(0.2)
