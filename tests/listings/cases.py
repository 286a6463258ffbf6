"""The cases for both programs: each is run in a folder of its own, and its output compared with the model's."""
import os
import random
import re
import subprocess
import sys
import tempfile

HEADER = b"start,length,power,word,shared\r\n"
EDIT = b"from,to\r\n"
SHEET = b"acbabcabcabac"
LIMIT = 16384


def is_lyndon(w):
    return all(w < w[k:] for k in range(1, len(w)))


def factors(s):
    """The cut into Lyndon words: naive for short patterns, Duval's algorithm for long ones."""
    out, i, n = [], 0, len(s)
    if n <= 40:
        while i < n:
            j = max(j for j in range(i + 1, n + 1) if is_lyndon(s[i:j]))
            out.append(s[i:j])
            i = j
        return out
    while i < n:
        j, k = i + 1, i
        while j < n and s[k] <= s[j]:
            k = i if s[k] < s[j] else k + 1
            j += 1
        while i <= k:
            out.append(s[i:i + j - k])
            i += j - k
    return out


def shared(a, b):
    """The length of the longest string that both begin with."""
    return max(k for k in range(min(len(a), len(b)) + 1) if a[:k] == b[:k])


def lines(fs):
    text, i, at = b"", 0, 0
    while i < len(fs):
        j = i
        while j < len(fs) and fs[j] == fs[i]:
            j += 1
        common = shared(fs[i], fs[j]) if j < len(fs) else 0
        text += b"%d,%d,%d,%s,%d\r\n" % (at, len(fs[i]), j - i, fs[i].hex().upper().encode(), common)
        at += (j - i) * len(fs[i])
        i = j
    return text


def refused(number):
    return b"refused,%d\r\n" % number


def listing(s):
    return refused(1) if len(s) > LIMIT else HEADER + lines(factors(s))


def edited(s, b, csv):
    if len(s) > LIMIT:
        return refused(1)
    m = re.fullmatch(rb"from,to\r\n([0-9]{1,5}),([0-9]{1,5})\r\n", csv)
    if not m or not int(m[1]) <= int(m[2]) <= len(s):
        return refused(2)
    f, t = int(m[1]), int(m[2])
    if len(b) > 256:
        return refused(3)
    e = s[:f] + b + s[t:]
    return refused(4) if len(e) > LIMIT else listing(e)


def run(program, stdin, files):
    """What the program prints; where `stdin` is None it runs without a standard input, so that the first file it opens is number 0.
    A file whose content is None is a folder, which opens and can't be read."""
    with tempfile.TemporaryDirectory() as folder:
        for name, content in files.items():
            if content is None:
                os.mkdir(os.path.join(folder, name))
                continue
            with open(os.path.join(folder, name), "wb") as f:
                f.write(content)
        command = [program] if stdin is not None else ["sh", "-c", 'exec "$0" <&-', program]
        return subprocess.run(command, input=stdin, cwd=folder, stdout=subprocess.PIPE, timeout=60).stdout


def listing_cases():
    rnd = random.Random(5)
    full = bytes(rnd.randrange(256) for _ in range(LIMIT))
    pairs = [bytes([x, y]) for x in range(255, -1, -1) for y in range(255, x, -1)]
    yield "the worked example", SHEET, listing(SHEET)
    for name, s, want in [("the worked example", SHEET, b"0,3,1,616362,1\r\n3,3,2,616263,2\r\n9,4,1,61626163,0\r\n"),
                          ("empty", b"", b""),
                          ("one group", b"abab", b"0,2,2,6162,0\r\n"),
                          ("the next word a prefix", b"abcab", b"0,3,1,616263,2\r\n3,2,1,6162,0\r\n"),
                          ("each word a prefix of the one before", b"abacaba", b"0,4,1,61626163,2\r\n4,2,1,6162,1\r\n6,1,1,61,0\r\n"),
                          ("the next word a prefix, twice", b"aabaa", b"0,3,1,616162,1\r\n3,1,2,61,0\r\n"),
                          ("nothing shared", b"cba", b"0,1,1,63,0\r\n1,1,1,62,0\r\n2,1,1,61,0\r\n"),
                          ("a power between", b"acababaa", b"0,2,1,6163,1\r\n2,2,2,6162,1\r\n6,1,2,61,0\r\n")]:
        yield name + ", literally", s, HEADER + want
    for name, s in [("empty", b""), ("4,097 bytes", full[:4097]), ("the longest", full), ("one byte too many", full + b"a"), ("65,549 bytes", bytes(65549)),
                    ("high bytes", bytes([0x7F, 0x80, 0x80, 0x7F, 255, 0, 255])), ("many groups", bytes(255 - i // 64 for i in range(16320))),
                    ("8,192 groups of two bytes", b"".join(pairs[:8192])), ("one group", b"a" * LIMIT), ("a line feed counts", b"ab\n"),
                    ("two digits shared", b"a" * 12 + b"c" + b"a" * 12 + b"b"), ("the most shared", b"a" * 8191 + b"c" + b"a" * 8191 + b"b")]:
        yield name, s, listing(s)
    for i in range(100):
        s = bytes(rnd.choice(b"ab\x80") for _ in range(rnd.randrange(30)))
        yield "random %d" % i, s, listing(s)


def edited_literally():
    for name, s, b, row, want in [("joined at both seams", b"aa", b"a", b"1,1", b"0,1,3,61,0\r\n"),
                                  ("joined at both seams, longer words", SHEET, b"abc", b"6,6",
                                   b"0,3,1,616362,1\r\n3,3,3,616263,2\r\n12,4,1,61626163,0\r\n"),
                                  ("joined at the first seam", b"aba", b"ab", b"2,2", b"0,2,2,6162,1\r\n4,1,1,61,0\r\n"),
                                  ("joined at the second seam", b"bab", b"ab", b"1,1", b"0,1,1,62,0\r\n1,2,2,6162,0\r\n"),
                                  ("joined through an empty middle", b"abaaab", b"", b"2,4", b"0,2,2,6162,0\r\n"),
                                  ("joined where nothing changes", b"aa", b"", b"1,1", b"0,1,2,61,0\r\n"),
                                  ("different words of equal length at both seams", b"ca", b"b", b"1,1",
                                   b"0,1,1,63,0\r\n1,1,1,62,0\r\n2,1,1,61,0\r\n"),
                                  ("nothing left", b"ab", b"", b"0,2", b""),
                                  ("the next word a prefix", b"abab", b"c", b"2,2", b"0,3,1,616263,2\r\n3,2,1,6162,0\r\n"),
                                  ("the next word a prefix, twice", b"aaba", b"a", b"4,4", b"0,3,1,616162,1\r\n3,1,2,61,0\r\n"),
                                  ("shared over both seams", b"abba", b"ab", b"3,3", b"0,3,1,616262,2\r\n3,2,1,6162,1\r\n5,1,1,61,0\r\n"),
                                  ("shared through an empty middle", b"abbaab", b"", b"3,4", b"0,3,1,616262,2\r\n3,2,1,6162,0\r\n"),
                                  ("16,384 equal words over both seams", b"a" * 16128, b"a" * 256, b"12000,12000", b"0,1,16384,61,0\r\n")]:
        yield name, {"pattern.bin": s, "block.bin": b, "edit.csv": EDIT + row + b"\r\n"}, HEADER + want


def edited_cases():
    rnd = random.Random(6)
    full = bytes(rnd.randrange(256) for _ in range(LIMIT))
    yield from edited_literally()
    for name, s, b, row in [("P5", SHEET, b"b", b"5,6"), ("P6", SHEET, b"a", b"11,11"), ("P13, leading zeros", b"aba", b"c", b"00003,3"),
                            ("emptied", SHEET, b"", b"0,13"), ("4,097 bytes", full[:4097], b"b", b"4096,4097"),
                            ("full size", full, full[:256], b"15000,15256"), ("to the longest by one byte", full[:-1], b"x", b"16383,16383"),
                            ("4", full, b"xx", b"5,5"), ("4 by one byte", full, b"x", b"16384,16384"), ("2 by one", full, b"", b"16384,16385"),
                            ("3", SHEET, bytes(257), b"0,1"), ("3 before 4", full, bytes(257), b"5,5"), ("2 before 3", SHEET, bytes(257), b"5,4"),
                            ("past the end", SHEET, b"", b"0,14"), ("as many starts as there may be", b"a" * LIMIT, b"", b"0,0"),
                            ("256 middle groups", b"", bytes(range(255, -1, -1)), b"0,0"),
                            ("two digits shared", b"a" * 12 + b"c" + b"a" * 12, b"b", b"25,25"),
                            ("the most shared", b"a" * 8191 + b"c" + b"a" * 8191, b"b", b"16383,16383")]:
        csv = EDIT + row + b"\r\n"
        yield name, {"pattern.bin": s, "block.bin": b, "edit.csv": csv}, edited(s, b, csv)
    yield "1 before 2", {"pattern.bin": full + b"a", "block.bin": b"", "edit.csv": b""}, refused(1)
    for i, csv in enumerate([EDIT + b"5,6\r", EDIT + b"5,6\r\n\r\n", EDIT + b"5,6\r\n7,8\r\n", EDIT + b"000005,6\r\n", EDIT + b",6\r\n", EDIT + b"5,\r\n",
                             EDIT + b"5, 6\r\n", EDIT + b"+5,6\r\n", EDIT + b"-5,6\r\n", EDIT + b'"5",6\r\n', b"\xef\xbb\xbf" + EDIT + b"5,6\r\n",
                             b"from,to\n5,6\n", b"from,tO\r\n5,6\r\n", b"5,6\r\n", EDIT, b"", EDIT + b"5;6\r\n", EDIT + b"5,6\r\nx", EDIT + b"5,6,7\r\n",
                             EDIT + b"12345,12345\r\n", EDIT + b"12345,12345\r\nx",
                             EDIT + b"00005,00006\r\nx"]):
        yield "malformed %d" % i, {"pattern.bin": SHEET, "block.bin": b"b", "edit.csv": csv}, refused(2)
    yield "no pattern, no block", {"edit.csv": EDIT + b"0,0\r\n"}, HEADER
    yield "a pattern that can't be read", {"pattern.bin": None, "block.bin": b"ba", "edit.csv": EDIT + b"0,0\r\n"}, edited(b"", b"ba", EDIT + b"0,0\r\n")
    yield "no file", {}, refused(2)
    for i in range(100):
        s = bytes(rnd.choice(b"ab\x80") for _ in range(rnd.randrange(30)))
        b = bytes(rnd.choice(b"ab\x80") for _ in range(rnd.randrange(4)))
        f = rnd.randrange(len(s) + 1)
        csv = EDIT + b"%d,%d\r\n" % (f, rnd.randrange(f, len(s) + 1))
        yield "random %d" % i, {"pattern.bin": s, "block.bin": b, "edit.csv": csv}, edited(s, b, csv)


def main():
    folder = os.path.abspath(sys.argv[1])
    passed = failed = 0
    runs = [("listing", name, (s, {}), want) for name, s, want in listing_cases()]
    runs += [("edited", name, (b"", files), want) for name, files, want in edited_cases()]
    name, files, want = next(case for case in edited_cases() if case[0] == "P5")
    runs += [("edited", name + ", no standard input", (None, files), want)]
    for program, name, given, want in runs:
        got = run(os.path.join(folder, program), *given)
        if got == want:
            passed += 1
        else:
            failed += 1
            print("%s, %s: printed %r, not %r" % (program, name, got[:200], want[:200]))
    print("%d passed, %d failed" % (passed, failed))
    return failed != 0


sys.exit(main())
