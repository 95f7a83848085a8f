#!/usr/bin/env python3
"""What store_demo should write, worked out by the rules alone: one class of 42 chunks, the policy that moves a
record to the front at every use and evicts, and a hash table of 16 to 64 slots that doubles when there are more than
one and a half records a slot, one old slot moved at each step."""

MASK = (1 << 64) - 1
MOST = 42


def main():
    records = []  # front first: [key, expiry, data]
    n = dict(evicted=0, expired=0, replaced=0, deleted=0)
    slots, unmoved = 16, 0
    chance = 2026

    def find(key, second):
        for r in records:
            if r[0] == key:
                if r[1] is not None and r[1] <= second:
                    records.remove(r)
                    n["expired"] += 1
                    return None
                return r
        return None

    for step in range(4000):
        chance = (chance * 6364136223846793005 + 1442695040888963407) & MASK
        second, number = step // 4, chance // 1024
        key, kind = number % 90, chance // 64 % 10
        old = find(key, second)
        if kind <= 5:
            expiry = second + 2 + number // 360 % 9 if number // 90 % 4 == 0 else None
            if len(records) == MOST:
                dead = [r for r in records if r[1] is not None and r[1] <= second]
                if dead:
                    records.remove(dead[-1])
                    n["expired"] += 1
                else:
                    records.pop()
                    n["evicted"] += 1
            if old in records:
                records.remove(old)
                n["replaced"] += 1
            records.insert(0, [key, expiry, step])
            if 2 * len(records) > 3 * slots and unmoved == 0 and 2 * slots <= 64:
                unmoved, slots = slots, 2 * slots
        elif kind <= 8:
            if old is not None:
                records.remove(old)
                records.insert(0, old)
        elif old is not None:
            records.remove(old)
            n["deleted"] += 1
        unmoved = max(0, unmoved - 1)
        if step % 500 == 499:
            print(f"step {step + 1}: {len(records)} held, {n['evicted']} evicted, {n['expired']} expired, "
                  f"{n['replaced']} replaced, {n['deleted']} deleted, {slots} slots; {step + 1} steps agree, "
                  "counts agree: true")
    print("after the flush: 0 held")


main()
