"""The read-only data of object files and archives: how many bytes, and that no part of byte order, 0 to 255, is among them.

Usage: sections.py FILE.. where a file is an ELF object of 64 bits or an archive of such objects.
"""
import os
import re
import struct
import sys

ALLOCATED, WRITTEN, EXECUTED = 2, 1, 4
# as many bytes as each had before calls took an order
MOST = {"listing.o": 48, "edited.o": 144, "liblyndon_c.a": 144, "liblyndon_edit_c.a": 64}
# what a table of byte order would have; the first sixteen also stand for places within a block
ORDER = [bytes(range(16 * k, 16 * k + 16)) for k in range(1, 16)]
# what the toolchain's own code has in a program: what the start-up code says on a processor that is too old, and in `edited`, which opens files,
# the numbers of the kinds of errors, by which an interrupted call is told
START_UP = b"this machine lacks a feature of x86-64-v2, which this program was built for: run it on another machine, or build it with --cpu x"
TOOLCHAIN = {"listing.o": START_UP, "edited.o": START_UP + bytes(range(32))}


def members(path):
    """The objects of an archive, or the object itself."""
    data = open(path, "rb").read()
    if not data.startswith(b"!<arch>\n"):
        return [data]
    found, at = [], 8
    while at + 60 <= len(data):
        size = int(data[at + 48 : at + 58])
        body = data[at + 60 : at + 60 + size]
        if body.startswith(b"\x7fELF"):
            found.append(body)
        at += 60 + size + size % 2
    return found


def constants(elf):
    """The bytes of each section that is loaded, neither written nor executed; without the tables for unwinding, and without those of the
    toolchain's functions, whose sections have their names."""
    start, size, count, names = (struct.unpack_from(f, elf, at)[0] for f, at in (("<Q", 40), ("<H", 58), ("<H", 60), ("<H", 62)))
    heads = [struct.unpack_from("<IIQQQQ", elf, start + size * k) for k in range(count)]
    text = heads[names][4]
    for name, _, flags, _, at, length in heads:
        called = elf[text + name : elf.index(b"\0", text + name)].decode()
        if flags & ALLOCATED and not flags & (WRITTEN | EXECUTED) and re.match(r"\.rodata(?!\.(core|std\w*)::)", called):
            yield elf[at : at + length]


def own(parts, name):
    """The parts without what the toolchain's own code has there, which is kept sixteen bytes at a time, once each."""
    text = TOOLCHAIN.get(name, b"")
    for piece in (text[k : k + 16] for k in range(0, len(text), 16)):
        at = next((k for k, part in enumerate(parts) if piece in part), None)
        if at is not None:
            parts = parts[:at] + parts[at].split(piece, 1) + parts[at + 1 :]
    return parts


def main():
    passed = failed = 0
    for path in sys.argv[1:]:
        name = os.path.basename(path)
        parts = own([part for elf in members(path) for part in constants(elf)], name)
        total = sum(map(len, parts))
        print(f"{name}: {total} bytes of read-only data, at most {MOST[name]}")
        listed = sum(row in part for row in ORDER for part in parts)
        for good, said in ((total <= MOST[name], "has more"), (listed == 0, f"has {listed} sixteenths of byte order")):
            passed += good
            failed += not good
            if not good:
                print(f"{name} {said}")
    print(f"{passed} passed, {failed} failed")
    return failed != 0


sys.exit(main())
