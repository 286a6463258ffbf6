"""README.md held to the repository: an indented block is run as shell commands and a fenced one is what the block before it prints;
named archives are built, and linked and mapped files looked for. Whatever it shows that is neither run nor compared is a failure. What the
programs print for other inputs is left to tests/listings."""
import glob
import os
import re
import shlex
import subprocess
import sys
import tempfile

ROOT = os.path.abspath(os.path.join(os.path.dirname(__file__), "..", ".."))

# the gate would run itself, and the benchmark prints times
NOT_RUN = (".ci/run", "bench/run")

# what a code span begins with where it is a command
COMMANDS = re.compile(r"(rt |cd |bin/|tests/[a-z]+/run|\.ci/|bench/run|printf |gcc |rustc |\$ )")


class Tally:
    def __init__(self):
        self.passed = self.failed = 0

    def check(self, good, name, why=""):
        print("%s: %s" % ("ok" if good else "WRONG", name) + (": " + why if why and not good else ""))
        self.passed += bool(good)
        self.failed += not good


def blocks(text):
    """Indented blocks, fenced ones and the lines of prose, in order: (kind, lines); a fence's first line is what its fence names."""
    found, fence = [], None
    for line in text.split("\n"):
        kind = "fence" if fence is not None else "code" if re.match(r"(    |\t)\s*\S", line) else "prose"
        if line.lstrip().startswith("```"):
            if fence is None:
                fence = [line.strip()[3:]]
                found.append(("fence", fence))
            else:
                fence = None
        elif kind == "fence":
            fence.append(line)
        elif found and found[-1][0] == kind:
            found[-1][1].append(line)
        elif line.strip():
            found.append((kind, [line]))
    return found, fence is None


def is_not_run(command):
    return any(re.match(re.escape(name) + r"(\s|$)", command) for name in NOT_RUN)


def run(commands, folder):
    """What the commands print, run as one script in the folder; the programs are the repository's."""
    there = re.sub(r"(?<![\w./-])bin/(?=\w)", shlex.quote(os.path.join(ROOT, "bin")) + "/", "\n".join(commands))
    words = ["bash", "-eu", "-o", "pipefail", "-c", there]
    done = subprocess.run(words, cwd=folder, stdin=subprocess.DEVNULL, stdout=subprocess.PIPE, timeout=600)
    return done.stdout, done.returncode


def shown_blocks(t, found):
    """Each indented block is run; the next block of code, if it prints, must be the fence with its output."""
    shown = [(kind, lines) for kind, lines in found if kind != "prose"]
    with tempfile.TemporaryDirectory() as folder:
        for k, (kind, lines) in enumerate(shown):
            if kind == "fence":
                t.check(k > 0 and shown[k - 1][0] == "code", "the output of %d lines has a command" % (len(lines) - 1))
                t.check(lines[0] == "", "the output of %d lines is plain" % (len(lines) - 1), "a fence of " + lines[0])
                continue
            commands = [line.strip() for line in lines if line.strip() and not is_not_run(line.strip())]
            name = "; ".join(commands)
            printed, status = run(commands, folder)
            t.check(status == 0, "runs: " + name, "status %d" % status)
            after = shown[k + 1] if k + 1 < len(shown) else ("", [])
            want = "".join(line + "\r\n" for line in after[1][1:]).encode() if after[0] == "fence" else b""
            t.check(printed == want, "prints what is shown: " + name, "%r, not %r" % (printed, want))


def spans(lines):
    return re.findall(r"`([^`]+)`", "\n".join(lines))


def writes(command, archive, afresh):
    """Whether the command leaves the archive, which is removed before it where it is to be written afresh."""
    path = os.path.join(ROOT, archive)
    if afresh and os.path.exists(path):
        os.remove(path)
    done = subprocess.run(command, cwd=ROOT, stdout=subprocess.DEVNULL, stderr=subprocess.DEVNULL)
    return done.returncode == 0 and os.path.exists(path)


def inline_commands(t, prose, code):
    """Commands in the prose: building an archive is run; another must be one that a block runs, or is not to be run."""
    for span in sorted(set(filter(COMMANDS.match, spans(prose)))):
        built = re.fullmatch(r"cd crates/(\w+) && rt lib", span)
        if built:
            archive = "crates/%s/out/lib%s.a" % (built[1], built[1])
            t.check(writes(["bash", "-c", span], archive, True), "writes %s: %s" % (archive, span))
        else:
            run_by_block = any(re.search(r"(?<![\w./-])" + re.escape(span) + r"(?![\w/])", line) for line in code)
            t.check(run_by_block or is_not_run(span), "run: " + span, "this script does not run it")
    for name in sorted({name for span in spans(prose) for name in re.findall(r"^lib(\w+)\.a$", span)}):
        t.check(writes(["tests/archive", name], "target/staticlib/lib%s.a" % name, False), "can be built: lib%s.a" % name)


def links(t, prose):
    for target in re.findall(r"\]\(([^)\s]+)\)", "\n".join(prose)):
        if not re.match(r"[a-z]+:|#", target):
            t.check(os.path.exists(os.path.join(ROOT, target.split("#")[0])), "link to " + target, "not there")


def is_there(path, folders):
    return any(glob.glob(os.path.join(ROOT, folder, path)) for folder in folders)


def map_rows(t, prose):
    """The files and folders of the table under 'Map': in the first column from the root, in the second also in the row's own folders."""
    text = "\n".join(prose)
    t.check("\n## Map\n" in text, "has a map")
    rows = [line.split("|")[1:3] for line in text.split("\n## Map\n")[-1].split("\n") if line.startswith("|")]
    for first, second in rows[2:]:
        own = spans([first])
        if not own:
            t.check(False, "a path in the map's row" + first)
        for path in own:
            t.check(is_there(path, [""]), "in the map: " + path, "not there")
        for path in spans([second]):
            t.check(is_there(path, [""] + own), "in the map, of %s: %s" % (", ".join(own), path), "not there")


def main():
    t = Tally()
    with open(os.path.join(ROOT, "README.md"), encoding="utf-8") as f:
        found, closed = blocks(f.read())
    t.check(closed, "every fence is closed")
    prose = [line for kind, lines in found if kind == "prose" for line in lines]
    code = [line for kind, lines in found if kind == "code" for line in lines]
    t.check(any(kind == "fence" for kind, _ in found) and bool(code), "shows commands and output")
    shown_blocks(t, found)
    inline_commands(t, prose, code)
    links(t, prose)
    map_rows(t, prose)
    print("%d passed, %d failed" % (t.passed, t.failed))
    return t.failed != 0


sys.exit(main())
