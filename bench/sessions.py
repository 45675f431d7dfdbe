#!/usr/bin/env python3
"""Writes a script of this many lines: bench/sessions.py LINES. It has four sessions with puts and gets on 50 keys, and among
20 lines a comment, a ping, a refused message and a get that is cut into two lines. Each 1,000 lines the history of a
partition is printed.
"""
import struct
import sys

lines = int(sys.argv[1])
CONNECTIONS = 4
FIRST, LAST = 0xC000, 0x2000
AUTHENTICATION, PING, PUT, GET = 0x000100, 0x000B00, 0x010100, 0x010200
NAME = b"m"
VALUE = bytes.fromhex("00000000fffffff576")

def frame(flags, payload):
    return struct.pack("<IH", len(payload) + 6, flags) + payload

def message(first, *payloads):
    payloads = [first, *payloads]
    last = len(payloads) - 1
    return b"".join(frame((FIRST if place == 0 else 0) | (LAST if place == last else 0), payload)
                    for place, payload in enumerate(payloads))

def head(kind, correlation, partition):
    return struct.pack("<iqi", kind, correlation, partition)

def authentication(client):
    return message(head(AUTHENTICATION, 0, -1) + struct.pack("<BQQB", 0, 0, client, 1), b"dev")

# A key's first four bytes state its partition, from 1 on.
def partition_of(call):
    return 1 + call // 2 % 50

def key_of(call):
    return struct.pack(">I", partition_of(call)) + bytes.fromhex("fffffff56b")

def put(call, partition=None):
    first = head(PUT, call, partition or partition_of(call)) + struct.pack("<qq", 1, 0)
    return message(first, NAME, key_of(call), VALUE)

def get(call):
    return message(head(GET, call, partition_of(call)) + struct.pack("<q", 1), NAME, key_of(call))

# Messages that are refused: a type that isn't there, a call without its fields, and a partition that isn't the key's.
def refused(call):
    return [message(head(0x017F00, call, 5)), message(head(GET, call, 5)), put(call, partition=271)][call // 20 % 3]

def arrive(call, data):
    print(f"bytes {call % CONNECTIONS} {data.hex()}")

print("grid 1 0 10")
for connection in range(CONNECTIONS):
    print(f"open {connection} 0")
    arrive(connection, b"CP2" + authentication(100 + connection))
call = 0
for line in range(2 + 2 * CONNECTIONS, lines):
    if line % 1000 == 500:
        print(f"trail {line // 1000 % 271}")
    elif line % 20 == 3:
        print(f"# {call} messages so far")
    elif line % 20 == 7:
        arrive(call, message(head(PING, call, -1)))
        call += 1
    elif line % 20 == 11:
        arrive(call, refused(call))
        call += 1
    elif line % 20 == 15 and line + 1 < lines:
        arrive(call, get(call)[:25])
    elif line % 20 == 16:
        arrive(call, get(call)[25:])
        call += 1
    else:
        arrive(call, put(call) if line % 2 == 0 else get(call))
        call += 1
print("end")
