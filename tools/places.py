#!/usr/bin/env python3
"""Lists the places in crates/*/src where an older form may stand, for docs/DESIGN-PASS.md.

    tools/places.py COMMIT POINT     the places of a point (1 to 7), one a line, with their count at the end
    tools/places.py . POINT          the same of the files as they lie here

Each list is what a pattern finds; which of its lines are places is read, and DESIGN-PASS.md says so.
"""
import re
import subprocess
import sys
from collections import defaultdict


def sources(commit):
    if commit == ".":
        names = subprocess.check_output(["git", "ls-files", "crates"], text=True).split()
    else:
        names = subprocess.check_output(["git", "ls-tree", "-r", "--name-only", commit, "crates"], text=True).split()
    for name in names:
        if re.search(r"/src/.*\.rt$", name):
            if commit == ".":
                text = open(name, encoding="utf-8").read()
            else:
                text = subprocess.check_output(["git", "show", f"{commit}:{name}"], text=True)
            yield name, text.split("\n")


class Function:
    """A function with a body: its name, parameters, clauses and body."""

    def __init__(self, path, line, name, head, clauses, body):
        self.path, self.line, self.name = path, line, name
        self.head, self.clauses, self.body = head, clauses, body

    def place(self):
        return f"{self.path}:{self.line} {self.name}"


def functions(commit):
    for path, lines in sources(commit):
        n = 0
        while n < len(lines):
            found = re.match(r"( *)(pub |pub\([a-z]+\) )?(const )?fn (\w+)", lines[n])
            if not found:
                n += 1
                continue
            indent, start, head, clauses = found.group(1), n, [], []
            while n < len(lines):
                line = lines[n]
                if re.match(r"\s+(requires|ensures)\b", line):
                    clauses.append(line.strip())
                elif not clauses:
                    head.append(line.strip())
                if line == indent + "{" or (not clauses and line.endswith(" {")) or line.rstrip().endswith((";", "{}")):
                    break
                n += 1
            body = []
            if n < len(lines) and lines[n].endswith("{"):
                n += 1
                while n < len(lines) and lines[n] != indent + "}":
                    body.append(lines[n])
                    n += 1
            yield Function(path, start + 1, found.group(4), " ".join(head), clauses, body)
            n += 1


def matching(commit, pattern):
    for path, lines in sources(commit):
        for n, line in enumerate(lines, 1):
            if re.search(pattern, line) and not line.strip().startswith(("//", "ghost", "ensures", "requires")):
                yield f"{path}:{n} {line.strip()}"


def codes_and_flags(commit):
    """Enums that carry values; numbers for kinds or refusals; flags and 0 as fields."""
    for path, lines in sources(commit):
        for n, line in enumerate(lines, 1):
            if re.match(r"\s*(pub |pub\(crate\) )?enum ", line):
                yield f"{path}:{n} {line.strip()}"
    yield from matching(commit, r"\b(refused|fault|told_at|misses)\((rt, )?\d+[,)]")
    yield from matching(commit, r"^\s*(pub |pub\(crate\) )?\w+: (bool|\[bool; \w+\]),$")
    yield from matching(commit, r"\b(line|field): 0,|\b(number|beside): 0\b|Refused \{ number")


def shape(body):
    """A body with its names and literals numbered, so that bodies which differ in these alone are alike."""
    keep = {"let", "mut", "if", "else", "for", "in", "while", "loop", "match", "return", "break", "self", "Ok", "Err",
            "Some", "None", "true", "false", "as", "fn", "ref"}
    seen, out = {}, []
    for token in re.findall(r"b?\"[^\"]*\"|b?'[^']*'|\w+|[^\s\w]", "\n".join(body)):
        if re.match(r"\w|b?[\"']", token) and token not in keep:
            token = f"<{seen.setdefault(token, len(seen))}>"
        out.append(token)
    return tuple(t for t in out if t != ",")


def twins(commit):
    """Functions whose bodies are alike but for names and literals (at least eight tokens long)."""
    groups = defaultdict(list)
    for f in functions(commit):
        if "tests" in f.path.split("/")[1] and "compare" not in f.path and "oracle" not in f.path:
            continue
        s = shape([line for line in f.body if not line.strip().startswith("//")])
        if len(s) >= 8:
            groups[s].append(f)
    for group in groups.values():
        if len(group) > 1:
            yield " = ".join(f.place() for f in group)


def counted_loops(commit):
    """Loops over numbers, indices by enumerate, and loops that only gather a number, a flag or a place."""
    yield from matching(commit, r"\bfor \w+ in .*\.\.|\.enumerate\(\)|^\s*while |^\s*loop\b")
    for f in functions(commit):
        body = "\n".join(f.body)
        if re.search(r"let mut \w+(: \w+)? = (0|1|true|false|None|\w+);\n\s*(let mut .*\n\s*)*for \w+ in (?!.*\.\.)", body):
            yield f.place() + " (gathers)"


def by_hand(commit):
    """Conversions, comparisons and printing: matches that hand on, tests that answer, lines of text in pieces."""
    for path, lines in sources(commit):
        for n, line in enumerate(lines, 1):
            here = line.strip()
            ahead = " ".join(x.strip() for x in lines[n:n + 4])
            if re.search(r"\bmatch\b.*\{$|^Ok\(|^Err\(", here) and re.search(r"Ok\((\w+|\(\))\) => (Ok\(|Answer::|\w+,).*|Err\((\w+)\) => (Err\(|return \w+|Answer::Refused|refused)", ahead):
                if "match" in here:
                    yield f"{path}:{n} {here}"
            if re.match(r"let (Some|Ok)\(.*else \{$", here) and re.match(r"return (Err|Ok\(None|None)", ahead):
                yield f"{path}:{n} {here}"
            if here.startswith("if ") and re.match(r"(Some|Ok)\(\w*.*\) \} else \{ (None|Err)", ahead):
                yield f"{path}:{n} {here}"
    yield from matching(commit, r"format!\(in|String::from_str|push_str\(|fn (number|beside|words_of|legible|same|from_\w+|to_\w+|small)\b")
    yield from matching(commit, r"fn new\(fields")


def together(commit):
    """Clauses that stand in three functions or more, and pairs of parameters that do."""
    clauses, pairs = defaultdict(set), defaultdict(set)
    for f in functions(commit):
        for clause in f.clauses:
            text = re.sub(r"\b(requires|ensures)( \w+)? ", "", clause)
            clauses[text].add(f.place())
        params = re.findall(r"(\w+): (&?(?:'\w+ )?(?:mut )?[\w\[\]:<>; ]+)", re.sub(r"^.*?fn \w+", "", f.head).split("->")[0])
        for (a, s), (b, t) in zip(params, params[1:]):
            if a not in ("alloc", "rt", "heap"):
                pairs[f"{a}: {s.strip()}, {b}: {t.strip()}"].add(f.place())
    for text, places in list(clauses.items()) + list(pairs.items()):
        if len(places) > 2:
            yield f"{len(places)} times: {text}"


def buffers(commit):
    """Arrays as fields, counts beside them, and lists that are searched by hand."""
    yield from matching(commit, r"^\s*(pub |pub\(crate\) )?\w+: (\[\w+; \w+\]|Vec<.*>),$")
    yield from matching(commit, r"^\s*(pub |pub\(crate\) )?\w*(count|len): usize,$")


def steps(commit):
    """Traits of one's own, function values, and what is chosen by a match on which step to run."""
    yield from matching(commit, r"^\s*(pub |pub\(crate\) )?trait |\bdyn \w|\bfn\(|impl Fn|: Fn(Mut|Once)?\(")


POINTS = {"1": codes_and_flags, "2": twins, "3": counted_loops, "4": by_hand, "5": together, "6": buffers, "7": steps}


def main():
    if len(sys.argv) != 3 or sys.argv[2] not in POINTS:
        sys.exit(__doc__)
    found = list(POINTS[sys.argv[2]](sys.argv[1]))
    print("\n".join(found))
    print(len(found))


main()
