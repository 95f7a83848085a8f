#!/usr/bin/env python3
"""Works out what replies_demo has to write, from the protocol's text alone."""
import sys

out = b""
for text in """ERROR
CLIENT_ERROR bad command line format
CLIENT_ERROR bad data chunk
SERVER_ERROR object too large for cache
SERVER_ERROR out of memory storing object
STORED
NOT_STORED
EXISTS
NOT_FOUND
DELETED
TOUCHED
OK
VERSION 1""".split("\n"):
    out += text.encode("ascii") + b"\r\n"

NASTY = b"one\r\nEND\r\nVALUE a 0 0\r\n"
assert len(NASTY) == 23

# get a line:2, gets a line:2, and a get that finds nothing
out += b"VALUE a 0 0\r\n\r\nVALUE line:2 4294967295 23\r\n" + NASTY + b"\r\nEND\r\n"
out += b"VALUE a 0 0 1\r\n\r\nVALUE line:2 4294967295 23 18446744073709551615\r\n" + NASTY + b"\r\nEND\r\n"
out += b"END\r\n"

for line in """limit_pages 256
free_pages 0
curr_items 9
total_items 10
replaced 11
deleted 99
flushed 100
expired 101
evictions 999
dropped 1000
get_hits 4294967296
get_misses 18446744073709551615
curr_connections 64
hash_slots 65536""".split("\n"):
    out += b"STAT " + line.encode("ascii") + b"\r\n"
out += b"END\r\n"

largest = b"VALUE " + b"k" * 250 + b" 4294967295 3846 18446744073709551615\r\n" + b"d" * 3846 + b"\r\n"
out += b"The longest reply of a get takes " + str(len(largest * 4 + b"END\r\n")).encode() + b" of 18432 bytes.\n"
sys.stdout.buffer.write(out)
