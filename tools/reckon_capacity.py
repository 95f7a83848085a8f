"""What capacity should print, reckoned apart from the code: reckon_capacity.py ARGS STDIN > STDOUT"""
import sys

PAGE = 4096
MOST = 2**64 - 1
FIELDS = (
    ("key-bytes", 1, 250, ""),
    ("data-bytes", 0, 60000, ""),
    ("count", 1, MOST, ", the most that is counted"),
)


def row(*columns):
    print("  ".join(str(value).rjust(width) for value, width in columns))


def plan_sizes(first, percent):
    assert 48 <= first <= 1024 and first % 8 == 0 and 110 <= percent <= 200
    sizes = [first]
    while True:
        size = sizes[-1] * percent // 100
        while size % 8:
            size += 1
        if size > 2048:
            break
        sizes.append(size)
    sizes.append(PAGE)
    assert len(sizes) <= 32
    return sizes


def fault(words):
    if len(words) != 3:
        return "not three numbers, key-bytes data-bytes count"
    for word, (name, least, most, why) in zip(words, FIELDS):
        if not word.isdigit():
            return f"{name} is not a number"
        if not least <= int(word) <= most:
            return f"{name} is not from {least} to {most}{why}"
    return None


def main():
    first, percent, given = (int(word) for word in open(sys.argv[1]).read().split())
    sizes = plan_sizes(first, percent)
    print(f"The plan of first size {first} and percent {percent}: {len(sizes)} classes.\n")
    row(("class", 8), ("chunk size", 10), ("chunks a page", 13), ("left over", 9))
    for number, size in enumerate(sizes, 1):
        ends = list(range(size, PAGE + 1, size))
        row((number, 8), (size, 10), (len(ends), 13), (PAGE - ends[-1], 9))
    print()

    records, filled, left_out, too_large = {}, {}, 0, 0
    row(("line", 8), ("key-bytes", 9), ("data-bytes", 10), ("count", 20), ("need", 6), ("class", 9))
    for number, line in enumerate(open(sys.argv[2], encoding="latin-1", newline="\n"), 1):
        words = line.split()
        wrong = fault(words)
        if not wrong:
            key, data, count = (int(word) for word in words)
            fitting = [place for place, size in enumerate(sizes, 1) if size >= key + data]
            where = fitting[0] if fitting else "too large"
            if records.get(where, 0) + count > MOST and fitting:
                wrong = f"its class would have more than {MOST} records, the most that is counted"
        if wrong:
            left_out += 1
            print(f"{number:>8}  left out: {wrong}")
            continue
        row((number, 8), (key, 9), (data, 10), (count, 20), (key + data, 6), (where, 9))
        if fitting:
            records[where] = records.get(where, 0) + count
            filled[where] = filled.get(where, 0) + count * (key + data)
        else:
            too_large += 1
    print()

    row(("class", 8), ("records", 20), ("chunks", 22), ("pages", 20), ("filled", 8))
    needed, short = 0, None
    for where in sorted(records):
        chunks = PAGE // sizes[where - 1]
        pages = -(-records[where] // chunks)
        needed += pages
        if needed > given and short is None:
            short = (where, needed - given)
        share = filled[where] * 1000 // (pages * PAGE)
        row((where, 8), (records[where], 20), (pages * chunks, 22), (pages, 20), (f"{share // 10}.{share % 10} %", 8))
    print()

    print(f"Pages needed: {needed}")
    print(f"Pages given: {given}")
    if short is None:
        print(f"The pages given hold every record above that has a class, with nothing pushed out; {given - needed} to spare.")
    else:
        print(f"The pages given do not suffice, {needed - given} are missing: class {short[0]} is the first that is short, by {short[1]}.")
    print(f"Kinds of records too large for any chunk: {too_large}")
    print(f"Lines left out: {left_out}")


main()
