"""The smallest stack limit under which each of the two programs prints what it prints under the usual one, for its longest inputs and
for refused ones. The counts of the calls' table come in as an argument and go out in the sum. What the programs print is left to
tests/listings."""
import os
import re
import subprocess
import sys
import tempfile

# in KiB; the loader's part counts too
BOUND = 512
USUAL = 8192

# the longest pattern, in bytes
LIMIT = 16384


def run(program, limit, stdin, folder):
    """What it prints, or nothing where it is killed or can't be started."""
    words = ["bash", "-c", 'ulimit -S -s "$1" && exec "$2"', "bash", str(limit), program]
    done = subprocess.run(words, input=stdin, cwd=folder, env={}, stdout=subprocess.PIPE, stderr=subprocess.DEVNULL, timeout=60)
    return done.stdout if done.returncode == 0 else None


def patterns():
    """One group; as many groups as there are bytes to tell apart; one word; two long words; one byte too many."""
    n = LIMIT
    falling = bytes(255 - k * 256 // n for k in range(n))
    return [b"a" * n, falling, b"a" * (n - 1) + b"b", (b"a" * (n // 2 - 1) + b"b") * 2, b"a" * (n + 1)]


def smallest(program, cases):
    """By halving: under every limit from the answer on all cases come out right. None where even the usual one fails."""
    right = [run(program, USUAL, *case) for case in cases]
    if None in right:
        return None
    low, high = 0, USUAL
    while high - low > 1:
        middle = (low + high) // 2
        if all(run(program, middle, *case) == want for case, want in zip(cases, right)):
            high = middle
        else:
            low = middle
    return high


def folders(top):
    """A folder for each edit of each pattern: at the front, inside and at the end, with the longest block and with none."""
    for i, pattern in enumerate(patterns()):
        for j, (start, end, block) in enumerate([(0, 256, 256), (2000, 2300, 256), (LIMIT, LIMIT, 0), (0, LIMIT, 0), (5, 4, 0)]):
            folder = os.path.join(top, "%d-%d" % (i, j))
            os.mkdir(folder)
            csv = b"from,to\r\n%d,%d\r\n" % (start, end)
            falling = bytes(range(255, 255 - block, -1))
            for name, content in [("pattern.bin", pattern), ("block.bin", falling), ("edit.csv", csv)]:
                with open(os.path.join(folder, name), "wb") as f:
                    f.write(content)
            yield b"", folder


def main():
    programs = os.path.abspath(sys.argv[1])
    counts = re.fullmatch(r"(\d+) passed, (\d+) failed", sys.argv[2])
    passed, failed = map(int, counts.groups()) if counts else (0, 1)
    with tempfile.TemporaryDirectory() as top:
        cases = {"listing": [(s, top) for s in patterns()], "edited": list(folders(top))}
        print("%-24s %8s %8s" % ("stack limit in KiB", "needed", "bound"))
        for name, inputs in cases.items():
            needed = smallest(os.path.join(programs, name), inputs)
            good = needed is not None and needed <= BOUND
            print("%-24s %8s %8d%s" % (name, needed, BOUND, "" if good else " TOO MUCH"))
            passed += good
            failed += not good
    print("%d passed, %d failed" % (passed, failed))
    return failed != 0


sys.exit(main())
