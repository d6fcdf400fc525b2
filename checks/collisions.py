#!/usr/bin/env python3
"""Measures the program on hostile texts, whose names, words and numbers collide in std's HashMap, beside texts that don't.

Usage: checks/collisions.py [PATH OF THE PROGRAM] [BYTES ..]
Defaults: crates/resolve/out/resolve (which `rt run` leaves), and 2^18, 2^20, 2^22 and 2^24 bytes. The program is asked for one package,
or for all, and judges a report of all. For each kind of text and each size: processor seconds of both, the least of three runs. The
check fails where the colliding text takes over twice as long as the other, and over a tenth of a second longer.

The kit's HashMap hashes by FoldHasher, whose seed is fixed. It multiplies sixteen bytes at a time, each half combined by xor with
what is known. The first sixteen bytes of FRONT leave its last eight as the state, so the next factor is 0, whatever eight bytes
follow. All names that begin so have one hash. A number has four bytes; those whose hashes agree in the bits that choose a place
are tried out.
"""
import itertools
import random
import resource
import string
import subprocess
import sys
import tempfile

from base import program_of, write_texts

WORD = string.ascii_letters + string.digits + "_"
FRONT = "a8FjWKDhLR0nsXBkc_ReVa44"
MASK = (1 << 64) - 1
SEED = 0x243F6A8885A308D3
MULTIPLIER = 0x9E3779B97F4A7C15


def folded_multiply(a, b):
    product = a * b
    return (product & MASK) ^ (product >> 64)


def hash_of_name(name):
    """FoldHasher's state behind a name of 32 bytes; one byte, 255, follows for all names."""
    words = [int.from_bytes(name.encode()[at:at + 8], "little") for at in range(0, 32, 8)]
    state = folded_multiply(words[0] ^ (SEED + 32 & MASK), words[1] ^ MULTIPLIER)
    return folded_multiply(words[2] ^ state, words[3] ^ MULTIPLIER)


def hash_of_number(number):
    """The half of FoldHasher's state that a table takes, behind the four bytes of a number."""
    state = folded_multiply(SEED ^ (number | number << 32), MULTIPLIER ^ 8)
    return (state ^ state >> 32) & 0xFFFFFFFF


def mixed(state, number):
    """The hash of keys and texts: of what a state is of, and one number more."""
    product = (state ^ number) * MULTIPLIER & MASK
    return product ^ product >> 32


def hash_of_set(number):
    """The hash of the version set of one number of the first package."""
    return mixed(mixed(mixed(0, 1), number), 0)


def hash_of_text(text):
    """The hash of a name or word among the terms; its lowest bits choose a place. For eight bytes or more."""
    bytes_of, state = text.encode(), 0
    for at in range(0, len(bytes_of) // 8 * 8, 8):
        state = mixed(state, int.from_bytes(bytes_of[at:at + 8], "little"))
    last = int.from_bytes(bytes_of[-8:], "little")
    return mixed(mixed(state, last), len(bytes_of))


def texts(count, collide):
    """So many names or words of 32 bytes, that have one hash or any."""
    rng = random.Random(1)
    for last in itertools.islice(itertools.product(WORD, repeat=8), count):
        front = FRONT if collide else "a" + "".join(rng.choices(WORD, k=23))
        yield front + "".join(last)


def numbers(count, collide, hash_of=hash_of_number):
    """So many numbers, falling, whose hashes agree in the bits that choose a place, or any."""
    if not collide:
        return sorted(random.Random(2).sample(range(1 << 32), count), reverse=True)
    bits = max(1, (count // 12).bit_length())
    same = (it for it in itertools.count(1) if hash_of(it) & (1 << bits) - 1 == 0)
    return sorted(itertools.islice(same, count), reverse=True)


def crowded(count, collide):
    """So many names of 32 bytes, whose places in the table of names are few, or any."""
    mask = (1 << max(1, (count // 12).bit_length())) - 1 if collide else 0
    ends = ("".join(last) for last in itertools.product(WORD, repeat=4))
    names = ("names_that_have_a_few_places" + end for end in ends)
    return list(itertools.islice((name for name in names if hash_of_text(name) & mask == 0), count))


def packages(size, collide):
    """Each line a version of another package."""
    names = list(texts(size // 43, collide))
    return [f"version {name} 1\n" for name in names], f"needs {names[0]}\n"


def specs(size, collide):
    """Each line a need of another package, which isn't listed."""
    return ["version a 1\n", *(f"needs {name} | a\n" for name in texts(size // 43, collide))], "needs a\n"


def words(size, collide):
    """Each version is barred for another reason."""
    lines = [f"version a {at}\nexclude a {at} {word}\n" for at, word in enumerate(texts(size // 72, collide))]
    return [*lines, "version b 1\n"], "needs b\n"


def versions(size, collide):
    """Versions of one package, whose numbers fall."""
    return [f"version a {number}\n" for number in numbers(min(size // 21, 1 << 12), collide)], "needs a\n"


def spans(size, collide):
    """Needs of one package with other spans."""
    found = numbers(min(size // 18, 1 << 12), collide)
    return ["version a 1\n", *(f"needs a {number} | a\n" for number in found)], "needs a\n"


def sets(size, collide):
    """The same with spans whose places in the table of version sets are few."""
    found = numbers(min(size // 18, 1 << 12), collide, hash_of_set)
    return ["version a 1\n", *(f"needs a {number} | a\n" for number in found)], "needs a\n"


def places(size, collide):
    """Each line a need of another package, whose places in the table of names are few."""
    names = crowded(min(size // 43, 1 << 12), collide)
    return ["version a 1\n", *(f"needs {name} | a\n" for name in names)], "needs a\n"


def installed(size, collide):
    """Each package is needed by a line of the request."""
    names = list(texts(size // 43, collide))
    return [f"version {name} 1\n" for name in names], "".join(f"needs {name}\n" for name in names)


def judged(size, collide):
    """Each package is an entry of a report, because of a line of the request."""
    names = list(texts(size // 43, collide))
    entries = (f"{name}=1 for request line {at}\n" for at, name in enumerate(names, 1))
    return *installed(size, collide), "install\n" + "".join(entries)


KINDS = (packages, specs, words, versions, spans, sets, places, installed, judged)


def seconds(program, lines, request, *reports):
    """Processor seconds, the least of three runs. A report is judged, other texts are solved."""
    with tempfile.TemporaryDirectory() as folder:
        paths = write_texts(folder, ["".join(lines), request, *reports])
        verb = "judge" if reports else "solve"
        found = []
        for _ in range(3):
            before = resource.getrusage(resource.RUSAGE_CHILDREN)
            ended = subprocess.run([program, verb, *paths], capture_output=True)
            after = resource.getrusage(resource.RUSAGE_CHILDREN)
            if ended.returncode not in (0, 1):
                sys.exit(f"status {ended.returncode}: {ended.stdout[:200]!r}")
            found.append(after.ru_utime + after.ru_stime - before.ru_utime - before.ru_stime)
        return min(found)


def main():
    program = program_of(sys.argv, 1)
    failed = False
    for size in [int(size) for size in sys.argv[2:]] or [1 << 18, 1 << 20, 1 << 22, 1 << 24]:
        for kind in KINDS:
            plain, other = (seconds(program, *kind(size, collide)) for collide in (False, True))
            slow = other > 2 * plain and other > plain + 0.1
            failed = failed or slow
            print(f"{size} bytes, {kind.__name__}: {plain:.2f} s; colliding: {other:.2f} s, {other / max(plain, 0.001):.1f} times{'  FAILED' if slow else ''}", flush=True)
    sys.exit(failed)


if __name__ == "__main__":
    assert len({hash_of_name(name) for name in texts(1000, True)}) == 1
    main()
