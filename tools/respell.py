#!/usr/bin/env python3
"""Respells the repository's own definitions and lemmas, once, after port.py: types and relations in camel case, all other
names in snake case, a prime as an apostrophe. Run at the top of the repository. Names of the library, names that the
check makes (goals and steps) and comments stay; what is left with a dash is listed."""
import glob
import re
import sys

NAME = r"[A-Za-z_][A-Za-z0-9_'≢≡≤≥→]*(?:-[A-Za-z0-9_'≢≡≤≥→]+)*"
TOKEN = re.compile(r"(?<![A-Za-z0-9_'-])" + NAME)
GIVEN = ("Answers.antt", "Invariants.antt", "Proof.antt", "Choices.antt")


def spelled(name):
    if name[0].isupper():
        return "".join(part[0].upper() + part[1:] for part in name.split("-"))
    return name.replace("-", "_")


def comment(line, mark):
    """Where the comment of a line begins; quoted marks do not occur in front of one here."""
    at = re.search(r"(^|\s)" + re.escape(mark), line)
    return at.start() if at else len(line)


def imports(text):
    """Each imported name with the module that it comes from."""
    for m in re.finditer(r"use ([\w.·\-'ᴰ◌]+)\.\{([^}]*)\}", text):
        for item in m.group(2).split(","):
            words = item.split()
            if words:
                yield m.group(1), words[-1]
    for m in re.finditer(r"use ([\w.·\-]+)\.([\w\-']+)( as ([\w\-']+))?\s*;?$", text, re.M):
        yield m.group(1), m.group(4) or m.group(2)


def bare(text, mark):
    return "\n".join(line[: comment(line, mark)] for line in text.split("\n"))


def declared(text):
    """The names that a file declares: definitions, lemmas, fields, constructors, local ones too."""
    out = set()
    for line in text.split("\n"):
        m = re.match(r"\s*(?:(?:abbrev|unfoldable|pub|data|record|opaque) +)*((?:" + NAME + r" +)+)[:({]", line)
        if m:
            out.update(m.group(1).split())
    return out


def goals(text):
    return set(re.findall(r"(" + NAME + r") : (?:goal|given|Goals|Given)\.", text))


def main():
    own = {p.split("/")[1] for p in glob.glob("crates/*/src")}
    antt = glob.glob("crates/*/specs/**/*.antt", recursive=True) + glob.glob("crates/*/proofs/**/*.antt", recursive=True)
    files = sorted(antt + glob.glob("crates/*/src/**/*.rt", recursive=True))
    texts = {p: open(p, encoding="utf-8").read() for p in files}
    names = set()
    for p in antt:
        text = bare(texts[p], "--")
        names |= declared(text) - (goals(text) if p.endswith(GIVEN) else set())
        if not p.endswith(GIVEN):
            foreign = {n for m, n in imports(text) if not m.startswith(tuple("Rattle.%s." % c for c in own))}
            names |= set(TOKEN.findall(text)) - foreign
    names = {n for n in names if "-" in n and spelled(n) != n}
    kept = {}
    for p in files:
        text = texts[p]
        foreign = set()
        for module, name in imports(text):
            if not module.startswith(tuple("Rattle.%s." % c for c in own)):
                foreign.add(name)
        skip = foreign | (goals(text) if p.endswith(GIVEN) else set())
        for n in sorted(names & skip):
            print("kept %s in %s" % (n, p))
        mark = "--" if p.endswith(".antt") else "//"
        out = []
        for line in text.split("\n"):
            at = comment(line, mark)
            code = TOKEN.sub(lambda m: spelled(m.group(0)) if m.group(0) in names - skip else m.group(0), line[:at])
            for word in TOKEN.findall(code):
                if "-" in word and word not in skip:
                    kept.setdefault(word, set()).add(p)
            tail = re.sub(r"`([^`]*)`", lambda m: "`" + TOKEN.sub(lambda t: spelled(t.group(0)) if t.group(0) in names else t.group(0), m.group(1)) + "`", line[at:])
            out.append(code + tail)
        new = "\n".join(out)
        if new != text:
            open(p, "w", encoding="utf-8").write(new)
        # names that fall together: imported, declared and, in a .rt file, the code's own items
        here = [spelled(n) if n in names - skip else n for _, n in imports(text)]
        here += [spelled(n) if n in names - skip else n for n in (declared(bare(text, "--")) if p.endswith(".antt") else [])]
        here += re.findall(r"\b(?:fn|mod|struct|enum|trait) (\w+)", bare(text, "//")) if p.endswith(".rt") else []
        for n in sorted({n for n in here if here.count(n) > 1 and "_" in n}):
            print("falls together: %s in %s" % (n, p))
    every = set()
    for p in antt:
        every |= declared(bare(texts[p], "--"))
    for n in sorted(names):
        if spelled(n) in every:
            print("falls together: %s and %s" % (n, spelled(n)))
    for word in sorted(kept):
        print("left: %s in %s" % (word, sorted(kept[word])[0]))
    return 0


if __name__ == "__main__":
    sys.exit(main())
