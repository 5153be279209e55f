#!/usr/bin/env python3
"""Lists the places in src/ that have the shape of an older form, point by point, for docs/DESIGN-PASS.md.

    python3 tools/forms.py [-l] [ROOT]     counts of the tree at ROOT (else here); -l lists each place

A place that is listed is one to read and not yet one to change: what became of each stands on that page."""
import collections
import glob
import os
import re
import sys

LIST = "-l" in sys.argv
rest = [a for a in sys.argv[1:] if a != "-l"]
os.chdir(rest[0] if rest else ".")


def code(path):
    """The lines of a file without comments and ghost uses."""
    lines = []
    for line in open(path, encoding="utf-8"):
        lines.append("" if re.match(r"\s*(//|ghost use|use )", line) else line.rstrip("\n"))
    return lines


files = {path: code(path) for path in sorted(glob.glob("crates/*/src/**/*.rt", recursive=True))}


def lines_with(pattern, keep=lambda path, line: True):
    return [(p, i + 1, l.strip()) for p, ls in files.items() for i, l in enumerate(ls) if re.search(pattern, l) and keep(p, l)]


def functions():
    """Each function: its file, line, name, parameters with their types, clauses, and body."""
    for path, lines in files.items():
        text = "\n".join(lines)
        for m in re.finditer(r"^( *)(?:pub(?:\([a-z]+\))? )?(?:final )?fn (\w+)", text, re.M):
            indent = m.group(1)
            end = re.compile(r"^" + indent + r"(?:\}|.*;)$", re.M)
            body_at = re.compile(r"^" + indent + r"\{$|\{\}?$", re.M).search(text, m.end())
            stop = end.search(text, m.end())
            if body_at and (not stop or body_at.start() <= stop.start()):
                close = re.compile(r"^" + indent + r"\}", re.M).search(text, body_at.end() - 1)
                head, body = text[m.start():body_at.start()], text[body_at.start():close.end() if close else len(text)]
            else:
                head, body = text[m.start():stop.end() if stop else len(text)], ""
            line = text.count("\n", 0, m.start()) + 1
            args = re.search(r"\((.*?)\)\s*(?:->|\n|$|;|\{)", text[m.end():m.start() + len(head)], re.S)
            params = tuple(p.strip() for p in re.split(r",\s*(?![^<\[(]*[>\])])", args.group(1).replace("\n", " ")) if ":" in p) if args else ()
            clauses = re.findall(r"(?:requires|ensures)(?: \w+)? \{ (.*) \}", head)
            yield path, line, m.group(2), params, clauses, body


FUNCTIONS = list(functions())


def twins():
    """Functions whose bodies differ only in names, numbers and strings."""
    groups = collections.defaultdict(list)
    for path, line, name, params, _, body in FUNCTIONS:
        text = re.sub(r"^(\s*)(\w+),$", r"\1\2: \2,", body, flags=re.M)
        text = re.sub(r"b?\"(?:[^\"\\]|\\.)*\"|b?'(?:[^'\\]|\\.)+'", "S", text)
        keys = r"\b(?!(?:if|else|match|for|while|loop|return|let|mut|in|true|false|Some|None|Ok|Err|self)\b)\w+"
        shape = re.sub(r"\s+", " ", re.sub(keys, "x", text))
        if len(re.findall(r"\w+|[^\w\s]", shape)) >= 12:
            groups[shape].append((path, line, name))
    return [(p, l, "%s, like %d more" % (n, len(g) - 1)) for g in groups.values() if len(g) > 1 for p, l, n in g]


def facts():
    """Facts of three or more contracts, each fact of a conjunction by itself; names of variables do not count."""
    where = collections.defaultdict(list)
    for path, line, name, _, clauses, _ in FUNCTIONS:
        seen = set()
        for clause in clauses:
            for fact in re.split(r" × ", clause):
                shape = re.sub(r"\b(result|[a-z_]+)((?:\.[a-z_]+)*)\.(now|old|new|entry)\b", r"v.\3", fact.strip("() "))
                seen.add(shape)
        for shape in seen:
            where[(path.split("/")[1], shape)].append((path, line, name))
    return [(v[0][0], v[0][1], "%d contracts: %s" % (len(v), k[1])) for k, v in where.items() if len(v) >= 3]


def travelling():
    """Pairs of parameters, by name and type, of three or more functions of a crate; `self`, the heap and the runtime are no pair."""
    where = collections.defaultdict(list)
    for path, line, name, params, _, _ in FUNCTIONS:
        ps = [re.sub(r"'\w+ ", "", p) for p in params if not re.search(r"\b(Global|HostRuntime|Abort)\b", p)]
        for i in range(len(ps)):
            for j in range(i + 1, len(ps)):
                where[(path.split("/")[1], ps[i], ps[j])].append((path, line, name))
    return [(v[0][0], v[0][1], "%s and %s: %s" % (k[1], k[2], ", ".join(x[2] for x in v))) for k, v in where.items() if len(v) >= 3]


def enums():
    """Enums of the repository whose cases are those of Option or Result: two, at least one with a value, or one without any."""
    found = []
    for path, lines in files.items():
        text = "\n".join(lines)
        for m in re.finditer(r"^(?:pub(?:\([a-z]+\))? )?enum (\w+)(?:<[^>]*>)? \{\n((?:.*\n)*?)\}", text, re.M):
            cases = re.findall(r"^    [A-Z]\w*\b.*", re.sub(r"^\s*#\[.*", "", m.group(2), flags=re.M), re.M)
            if len(cases) == 2 and sum("(" in c for c in cases) == 1:
                found.append((path, text.count("\n", 0, m.start()) + 1, "enum " + m.group(1)))
    return found


POINTS = [
    ("1 own enums like Option or Result", enums),
    ("1 an Option or a flag that says why or whether something is refused", lambda: lines_with(r"fn \w+.*-> Option<(Stop|Cause|Denial|Fault|u8)>|fn first_(bad|misplaced)")),
    ("1 numbers for kinds and causes", lambda: lines_with(r"fn \w*(kind|number)\w*\(.*(-> (Option<)?u8|: u8)|\bkind: u8\b")),
    ("2 functions that differ in names and constants alone", twins),
    ("3 loops", lambda: lines_with(r"(^|\s)(while|loop|for)\s.*\{$|^\s*loop \{", lambda p, l: " impl" not in l and not l.strip().startswith(("impl", "ghost", "> for")))),
    ("3 of these, with an index or a count by hand", lambda: lines_with(r"\b\w+ [+-]= 1;|enumerate\(\)|while \w+ [<>]")),
    ("4 equality, conversion and printing", lambda: lines_with(r"^\s*(pub )?(pub\(crate\) )?fn (same\w*|eq|cmp|clone|\w+_of|\w+_named|\w+_number|number|look|fmt|from|try_from|from_str|out_of_memory|no_memory_to_load)\b")),
    ("5 facts of three contracts", facts),
    ("5 parameters that travel together", travelling),
    ("6 arrays of a fixed length, in structs", lambda: lines_with(r"^\s+(pub )?\w+: (&'a mut )?\[.*; *\w+\],$")),
    ("6 lengths and indices beside them", lambda: lines_with(r"^\s+(pub )?(top|len|next|count|cell|request): (usize|u8),$")),
    ("6 lists, in structs", lambda: lines_with(r"^\s+(pub )?\w+: (Vec<.*>|&'static \[.*\]),$")),
    ("7 tables and switches", lambda: lines_with(r"\bdyn\b|: fn\(|^\s+match (i|command|step|kind|node) \{")),
]

total = 0
for title, find in POINTS:
    found = find()
    print("%3d  %s" % (len(found), title))
    if LIST:
        for path, line, what in found:
            print("       %s:%d  %s" % (path, line, what[:150]))
