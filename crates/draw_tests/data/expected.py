"""Makes the file `stdout` of this crate: python3 data/expected.py > stdout

Written from the rules, on Python's integers cut to 64 bits; it shares no code with the crate.
"""
from itertools import chain, islice, repeat

MASK = 2**64 - 1


def generator(s):
    while True:
        s ^= (s << 13) & MASK
        s ^= s >> 7
        s ^= (s << 17) & MASK
        yield s & 0xFFFF


def tape(words):
    return chain(words, repeat(0xFFFF))


def roll(source, rate):
    return rate != 0 and (rate == 65536 or next(source) < rate)


def pick(source, n):
    return next(source) % n if n else 0


def select(source, mode, rate, places):
    if mode == "Subset":
        return [roll(source, rate) for _ in range(places)]
    count = 0
    while count < places and roll(source, rate):
        count += 1
    return [place < count for place in range(places)]


def shown(flag):
    return "true" if flag else "false"


def selection(mode, rate, words):
    source = tape(words)
    flags = ", ".join(shown(flag) for flag in select(source, mode, rate, 3))
    print(f"{mode} at {rate}: [{flags}], next {next(source)}")


for state in (0, 1, 0x0123456789ABCDEF, MASK):
    print(f"generator from {state}")
    for word in islice(generator(state), 100):
        print(word)

for words in ([7, 0, 65535, 40000], []):
    print(f"tape of {words}")
    for word in islice(tape(words), 8):
        print(word)

for rate in (0, 1, 32768, 65535, 65536, 65537, MASK):
    source = tape([0, 1, 65534, 65535, 11])
    print(f"rolls at {rate}")
    for _ in range(4):
        print(shown(roll(source, rate)))
    print(f"next {next(source)}")

for n in (0, 1, 7, 65536, MASK):
    source = tape([6, 7, 65535, 11])
    print(f"picks of {n}")
    for _ in range(3):
        print(pick(source, n))
    print(f"next {next(source)}")

for rate in (0, 32768, 65535, 65536, 65537):
    selection("Prefix", rate, [1, 40000, 5, 6])
    selection("Prefix", rate, [65534, 65534, 65534, 6])
    selection("Subset", rate, [40000, 1, 1, 6])
    selection("Subset", rate, [])
