"""The rules of tests/mutants: what is a small wrong edit of a function, and in which order the edits of a function are tried.
A rule takes a line and gives wrong lines; types are guessed from the form, and what does not compile is passed over by the run."""
import collections
import pathlib
import random
import re

ROOT = pathlib.Path(__file__).resolve().parent.parent
OTHER = {"<": "<=", "<=": "<", "==": "!=", "!=": "==", "+": "-", "-": "+", "+=": "-=", "-=": "+="}

Place = collections.namedtuple("Place", "crate path name first last contract types")
Mutant = collections.namedtuple("Mutant", "place rule line edits")


def guess_type(value, types, fields):
    """The type of an expression, as far as its form tells."""
    if re.fullmatch(r"\d+", value) or value.endswith((".len()", "as usize")):
        return "usize"
    if value in types:
        return types[value]
    dotted = re.fullmatch(r"\w+\.(\w+)", value)
    if dotted:
        return next((kinds[dotted[1]] for kinds in fields if dotted[1] in kinds), None)
    element = re.fullmatch(r"(\w+)\[[^\[\]]*\]", value)
    if element:
        return types.get(element[1], "").rpartition("[")[2].rstrip("]") or None
    if re.match(r"&mut |&", value):
        return types.get(re.match(r"(?:&mut |&)(\w*)", value)[1], "&").replace("&mut ", "&")
    if re.search(r" [-+*/] ", value) and "as u" not in value:
        return "usize"
    return None


def local_types(head, body, fields):
    """The names of a function's parameters and locals, with their types."""
    types = dict(re.findall(r"(\w+): (&(?:mut )?\[\w+\]|&mut \w+|u8|u16|u64|usize)", " ".join(head)))
    for line in body:
        bound = re.match(r"\s*let (?:mut )?(\w+) = (.*);$", line)
        if bound:
            types[bound[1]] = guess_type(bound[2], types, fields) or ""
    return types


def struct_fields():
    """The fields and their types of every struct of the crates."""
    text = "\n".join(path.read_text() for path in sorted(ROOT.glob("crates/*/src/*.rt")))
    bodies = re.findall(r"^(?:pub )?struct \w+ \{\n(.*?)^\}", text, re.M | re.S)
    return [dict(re.findall(r"(\w+): ([^,\n]+),", body)) for body in bodies]


def places_of(crate, fields):
    """The functions, methods and constants of a crate, in the order of its files."""
    for path in sorted((ROOT / "crates" / crate / "src").glob("*.rt")):
        lines = path.read_text().split("\n")
        head = None
        law = False
        for at, line in enumerate(lines):
            # what a trait's method promises is its impl's law
            if line.startswith("impl"):
                law = False
            elif re.match(r" +ghost \w+ = \{", line):
                law = True
            const = re.match(r"(?:pub )?const (\w+):", line)
            if const and (path.parent / "lib.rt").exists():
                yield Place(crate, path, const[1], at, at + 1, True, {})
            # a method stands further in, in its impl
            if start := re.match(r"( *)(pub(\(crate\))? )?(extern \"C\" )?fn \w+", line):
                head = at
                body = None
                edge = start[1]
            if head is not None and body is None and (line == edge + "{" or re.match(edge + r"(pub\b|extern |fn |\)).*\{$", line)):
                body = at + 1
            if head is not None and line == edge + "}":
                contract = any(row.strip().startswith("ensures") for row in lines[head:body]) or (edge != "" and law)
                name = re.search(r"fn (\w+)", lines[head])[1]
                types = local_types(lines[head:body], lines[body:at], fields)
                yield Place(crate, path, name, body, at, contract, types)
                head = None


def replaced(line, found, new, group=0):
    return line[: found.start(group)] + new + line[found.end(group) :]


def compared(line, _types, _fields):
    """`<` for `<=`, `==` for `!=`, and back."""
    return [replaced(line, m, OTHER[m[1]], 1) for m in re.finditer(r" (<=?|==|!=) ", line)]


def turned(line, _types, _fields):
    """The sides of a comparison exchanged."""
    m = re.match(r"(\s*(?:(?:if|while|return) )?)([^={]+?) (<=?) ([^={]+?)( \{.*|;|)$", line)
    return [f"{m[1]}{m[4]} {m[3]} {m[2]}{m[5]}"] if m else []


def off_by_one(line, _types, _fields):
    """A constant off by one; a byte for its neighbour; a truth value for the other."""
    out = []
    for m in re.finditer(r"(?<![\w.\"])\d+(?![\w.])", re.sub(r"const \w+: [^=]*=", lambda c: "_" * len(c[0]), line)):
        n = int(m[0])
        out += [replaced(line, m, str(k)) for k in (n + 1, n - 1) if k >= 0]
    for m in re.finditer(r"b['\"](\w|,|\\r)", line):
        out.append(replaced(line, m, "\\n" if m[1] == "\\r" else chr(ord(m[1]) + 1), 1))
    for m in re.finditer(r"\b(true|false)\b", line):
        out.append(replaced(line, m, "false" if m[0] == "true" else "true"))
    return out


def one_dropped(line, _types, _fields):
    """`+ 1` made `+ 0`, which keeps the shape of the function."""
    return [replaced(line, m, "0", 1) for m in re.finditer(r" [-+]=? (1)\b", line)]


def other_name(line, types, _fields):
    """A local for another of its type, in an index first."""
    start = re.match(r"\s*(let (mut )?\w+ = )?", line).end()
    found = [m for m in re.finditer(r"(?<![\w.'\"\\])[a-z_]\w*(?![\w(]|: |::)", line) if m.start() >= start and types.get(m[0])]
    found.sort(key=lambda m: line[: m.start()].count("[") <= line[: m.start()].count("]"))
    return [replaced(line, m, new) for m in found for new in types if new != m[0] and types[new] == types[m[0]]]


def other_field(line, _types, fields):
    """A field for another of its struct and type."""
    out = []
    for m in re.finditer(r"(?<!\.)\.([a-z]\w*)(?![\w(])", line):
        near = [name for kinds in fields if m[1] in kinds for name in kinds if name != m[1] and kinds[name] == kinds[m[1]]]
        out += [replaced(line, m, name, 1) for name in dict.fromkeys(near)]
    return out


def arguments(line, types, fields):
    """Two neighbouring arguments of one type exchanged."""
    out = []
    for m in re.finditer(r"\w\(([^()]*(?:\(\)[^()]*)*)\)", line):
        parts = m[1].split(", ")
        for k in range(len(parts) - 1):
            kinds = [guess_type(part, types, fields) for part in parts[k : k + 2]]
            if kinds[0] and kinds[0] == kinds[1] and parts[k] != parts[k + 1]:
                swapped = parts[:k] + [parts[k + 1], parts[k]] + parts[k + 2 :]
                out.append(replaced(line, m, ", ".join(swapped), 1))
    return out


def inner_arms(line, _types, _fields):
    """The arms of an `if` on one line, or the two values of a struct on one line, exchanged."""
    m = re.search(r"\{ (\w+) \} else \{ (\w+) \}", line)
    if m:
        return [replaced(line, m, f"{{ {m[2]} }} else {{ {m[1]} }}")]
    m = re.search(r"\{ (\w+)(?:: (\w+))?, (\w+)(?:: (\w+))? \}", line)
    return [replaced(line, m, f"{{ {m[1]}: {m[4] or m[3]}, {m[3]}: {m[2] or m[1]} }}")] if m else []


def nought(line, _types, _fields):
    """A constant for what a field holds or gets."""
    m = re.match(r"\s*(?:\S+ = )?(\w+\.([a-z]+))(;?)$", line)
    if m:
        return [replaced(line, m, "true" if m[2] == "yes" else "0", 1)]
    m = re.match(r"\s*\w+ \{ \w+, (\w+) \}$", line)
    return [replaced(line, m, f"{m[1]}: 0", 1)] if m else []


def not_dropped(line, _types, _fields):
    return [line.replace("if !", "if ", 1)] if "if !" in line else []


def minus(line, _types, _fields):
    """`+` for `-` and back."""
    return [replaced(line, m, OTHER[m[1]], 1) for m in re.finditer(r" ([-+]=?) ", line)]


def arms(lines, at):
    """The values of two neighbouring arms, or of two neighbouring fields, exchanged."""
    form = r"(\s+)(\w+|\S+\(\w+\))(?:( =>|:) ([^{]+))?,$"
    one, two = re.match(form, lines[at]), re.match(form, lines[at + 1])
    if not one or not two or (one[3] or ":").strip() != (two[3] or ":").strip() or not (one[4] or two[4]):
        return None
    values = [m[4] or m[2] for m in (one, two)]
    if values[0] == values[1]:
        return None
    mark = one[3] or two[3]
    return {at: f"{one[1]}{one[2]}{mark} {values[1]},", at + 1: f"{two[1]}{two[2]}{mark} {values[0]},"}


FIRST = [compared, other_name, off_by_one, turned, one_dropped, other_field, inner_arms, arguments]
LAST = [nought, not_dropped, minus]


def candidates(place, fields):
    """Every mutant of a place by rule, each rule's in a fixed order that is not the order of the lines."""
    lines = place.path.read_text().split("\n")
    found = {}
    for rule in FIRST + LAST:
        name = rule.__name__
        rows = [(at, new) for at in range(place.first, place.last) for new in rule(lines[at], place.types, fields)]
        found[name] = [Mutant(place, name, at, {at: new}) for at, new in rows if new != lines[at]]
    pairs = [(at, arms(lines, at)) for at in range(place.first, place.last - 1)]
    found["arms"] = [Mutant(place, "arms", at, edits) for at, edits in pairs if edits]
    for name, mutants in found.items():
        random.Random(f"{place.crate} {place.name} {name}").shuffle(mutants)
    return found


def queue_of(place, turn, fields):
    """The mutants of a place in the order in which they are tried: rule after rule, from another rule on at each place."""
    found = candidates(place, fields)
    first = ["arms"] + [rule.__name__ for rule in FIRST]
    names = first[turn % len(first) :] + first[: turn % len(first)]
    queue, seen = [], set()
    for group in (names, [rule.__name__ for rule in LAST]):
        while any(found[name] for name in group):
            queue += [found[name].pop(0) for name in group if found[name]]
    unique = []
    for mutant in queue:
        key = tuple(sorted(mutant.edits.items()))
        if key not in seen:
            unique.append(mutant)
        seen.add(key)
    return unique
