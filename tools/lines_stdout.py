#!/usr/bin/env python3
"""What lines_demo must write for the requests on standard input, worked out from the protocol's rules and from no code of this repository.

    python3 tools/lines_stdout.py < crates/lines_demo/stdin > crates/lines_demo/stdout
"""
import re
import sys

NAME = {"r": b"\r", "n": b"\n", "t": b"\t", "\\": b"\\"}


def decoded(text):
    out = b""
    for kind, hexa, times, plain in re.findall(r"\\(?:([rnt\\])|x([0-9a-f]{2})|\((\d+)\))|(.)", text):
        if kind:
            out += NAME[kind]
        elif hexa:
            out += bytes([int(hexa, 16)])
        elif times:
            out += out[-1:] * (int(times) - 1)
        else:
            out += plain.encode("latin-1")
    return out


def number(token, digits, top):
    if re.fullmatch(rb"[0-9]{1,%d}" % digits, token) and int(token) <= top:
        return int(token)
    raise ValueError


def exptime(token):
    if re.fullmatch(rb"-?[0-9]{1,10}", token) and -(2**31) <= int(token) < 2**31:
        return int(token)
    raise ValueError


def key(token):
    if 1 <= len(token) <= 250 and all(b >= 33 and b != 127 for b in token):
        return token
    raise ValueError


def shown(part, at):
    text = "".join(chr(b) if 33 <= b <= 126 else "\\x%02x" % b for b in part[:20])
    return "%s%s@%d" % (text, "..%d" % len(part) if len(part) > 20 else "", at)


COUNTS = {"set": {4}, "add": {4}, "replace": {4}, "cas": {5}, "get": {1, 2, 3, 4}, "gets": {1, 2, 3, 4}, "delete": {1}, "touch": {2},
          "flush_all": {0}, "version": {0}, "quit": {0}, "stats": {0}}


def said(data):
    end = data[:2048].find(b"\r\n")
    if end < 0:
        return "no line end"
    rest = data[end + 2:]
    found = [(m.group(), m.start()) for m in re.finditer(rb"[^ ]+", data[:end])]
    word = found[0][0].decode("latin-1") if found else ""
    args = found[1:]
    if word not in COUNTS or len(args) not in COUNTS[word]:
        return "unknown"
    text = word
    try:
        if word in ("get", "gets"):
            text += "".join(" " + shown(key(t), at) for t, at in args)
        elif COUNTS[word] != {0}:
            name = shown(key(args[0][0]), args[0][1])
            if word == "delete":
                text = "delete " + name
            elif word == "touch":
                text = "touch %s exptime %d" % (name, exptime(args[1][0]))
            else:
                flags = number(args[1][0], 10, 2**32 - 1)
                when = exptime(args[2][0])
                size = number(args[3][0], 5, 60000)
                if word == "cas":
                    text += " %d" % number(args[4][0], 20, 2**64 - 1)
                if len(rest) != size + 2 or rest[size:] != b"\r\n":
                    return "bad data"
                return "%s %s flags %d exptime %d block %s" % (text, name, flags, when, shown(rest[:size], end + 2))
    except ValueError:
        return "bad line"
    return "bad data" if rest else text


for n, line in enumerate(sys.stdin.read().split("\n")[:-1], 1):
    print(n, said(decoded(line)))
