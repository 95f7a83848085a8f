#!/usr/bin/env python3
"""What the program sessions_demo must write, from a plain list of sessions.

It shares nothing with the code: a session is a pair in a list, the one served last in front.
"""

LAST_CALLER = 4_194_303
sessions = []  # (caller, last second), front first


def caller(k):
    return k * 4096 + k // 8


def is_open(c):
    return any(who == c for who, _ in sessions)


def to_front(c, second):
    sessions[:] = [(c, second)] + [s for s in sessions if s[0] != c]


def admit(c, second):
    if c > LAST_CALLER:
        return 4
    if is_open(c):
        return 5
    if len(sessions) >= 64:
        return 6
    to_front(c, second)
    return 0


def say_admitted(number):
    print("admitted" if number == 0 else f"refused with number {number}")


def say_open():
    print(f"{len(sessions)} open:" + "".join(f" {k}" for k in range(65) if is_open(caller(k))))


def word(flag):
    return "true" if flag else "false"


def serve(k, second):
    known = is_open(caller(k))
    if known:
        to_front(caller(k), second)
    print(f"serve {k}: {word(known)}")


def close(k):
    known = is_open(caller(k))
    sessions[:] = [s for s in sessions if s[0] != caller(k)]
    print(f"close {k}: {word(known)}")


def sweep(second, limit):
    idle = [s for s in sessions if s[1] + limit <= second]
    sessions[:] = [s for s in sessions if s[1] + limit > second]
    print(f"idle for {limit} at {second}: {len(idle)} closed")
    say_open()


print("63 rows are too few")
say_open()
for k in range(64):
    assert admit(caller(k), 10 + k) == 0
say_open()
say_admitted(admit(caller(64), 75))
say_admitted(admit(caller(7), 75))
say_admitted(admit(4_194_304, 75))
say_open()
for k in (0, 9, 64):
    serve(k, 80)
for k in (1, 1, 63):
    close(k)
say_admitted(admit(4_194_303, 81))
say_open()
sweep(100, 80)
sweep(100, 80)
sweep(101, 21)
say_admitted(admit(caller(2), 4_294_967_295))
sweep(4_294_967_295, 1)
sweep(4_294_967_295, 0)
