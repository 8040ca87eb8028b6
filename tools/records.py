"""The records of docs/FORMATS.md and the two kinds of seal, for the tools that make and draw sheets."""

import collections
import hashlib
import hmac
import re

Key = collections.namedtuple("Key", "view name")
Order = collections.namedtuple("Order", "mark truck place amount")
Proposal = collections.namedtuple("Proposal", "key parent orders signers seals seal")
Vote = collections.namedtuple("Vote", "key voter seal")

ORIGIN = Key(0, bytes(32))
SEAL = 16


def number(value, size):
    return value.to_bytes(size, "big")


def quorum(n):
    return n - (n - 1) // 3


# Orders

def order_of(text):
    """An order as a sheet writes it: `SD 7 12`, `RL 7` or `LD 7 12 305`."""
    mark, *numbers = text.split(" ")
    truck, place, amount = (list(map(int, numbers)) + [0, 0])[:3]
    return Order(mark, truck, place, amount)


def orders_of(text):
    return [order_of(one) for one in text.split(", ")] if text else []


def order_text(order):
    numbers = {"SD": order[1:3], "RL": order[1:2], "LD": order[1:4]}[order.mark]
    return " ".join([order.mark, *map(str, numbers)])


def order_bytes(order):
    return order.mark.encode() + number(order.truck, 2) + number(order.place, 2) + number(order.amount, 2)


# Records

def body_bytes(view, parent, orders):
    head = b"BD" + number(view, 4) + number(parent.view, 4) + parent.name
    return head + number(len(orders), 1) + b"".join(map(order_bytes, orders))


def key_of(body):
    return Key(int.from_bytes(body[2:6], "big"), hashlib.sha256(body).digest())


def certificate_bytes(key, seals):
    """`seals` has the seal of each signer, by the signer's number."""
    signers = sum(1 << signer for signer in seals)
    return b"CT" + number(key.view, 4) + key.name + number(signers, 2) + b"".join(seals[i] for i in sorted(seals))


def vote_bytes(key, voter, seal):
    return b"VT" + number(key.view, 4) + key.name + number(voter, 1) + seal


def statement_bytes(mark, key):
    return mark + number(key.view, 4) + key.name


def read(message):
    """The proposal or the vote that well-formed bytes are. Nothing is checked."""
    if message[:2] == b"VT":
        return Vote(Key(int.from_bytes(message[2:6], "big"), message[6:38]), message[38], message[39:55])
    k = message[44]
    body = message[2:45 + 8 * k]
    parent = Key(int.from_bytes(body[6:10], "big"), body[10:42])
    orders = []
    for at in range(43, len(body), 8):
        numbers = [int.from_bytes(body[at + i:at + i + 2], "big") for i in (2, 4, 6)]
        orders.append(Order(body[at:at + 2].decode(), *numbers))
    bits = int.from_bytes(message[83 + 8 * k:85 + 8 * k], "big")
    signers = [i for i in range(16) if bits >> i & 1]
    seals = message[85 + 8 * k:-SEAL]
    return Proposal(key_of(body), parent, orders, signers,
                    {i: seals[SEAL * at:SEAL * (at + 1)] for at, i in enumerate(signers)}, message[-SEAL:])


# Seals

def keyed_seal(key, statement):
    return hmac.new(key, statement, hashlib.sha256).digest()[:SEAL]


def stamp(signer, statement):
    return statement[:6] + number(signer, 1) + statement[6:15]


# Sheets

def lines_asked(sheet):
    """The lines of a sheet's text that are answered, each with its number, counted from 1."""
    lines = enumerate(sheet.split("\n"), 1)
    return [(at, line) for at, line in lines if line.strip(" ") and not line.startswith("#")]


REFUSED = re.compile(r"refused (\d+)$")
