#!/usr/bin/env python3
"""Brings this repository's own definitions and lemmas to the spelling of today's Rattle: words in snake case, an apostrophe for a prime. Run once, at the top, after the
kit's port.py; `--list` prints the names that it would change, and those that it leaves.

It changes names that specs/ and the lemma files of proofs/ declare (definitions, fields, cases, `where` functions, binders), wherever they are cited: in .antt files, in the
clauses and ghost items of .rt files, in must-fail edits. A name that the kit has too (as `mod-lt`) keeps its spelling, since the kit's lemmas have it. Functions of src/, exported
names, strings and comments stay."""
import os
import re
import sys

KIT = os.environ.get("RATTLE_KIT", "/opt/rattle/rattle")
LETTER = "A-Za-z0-9_'\u2032\u2080-\u2089"
TOKEN = re.compile(rf"(?<![{LETTER}\u00b7-])[A-Za-z][{LETTER}]*(?:-[{LETTER}]+)*")
HEAD = re.compile(r"^\s*(?:(?:pub|abbrev|unfoldable|opaque|instance|record|data|field|private)\s+)*([A-Za-z][^\s:(){}]*)(?:\s+[({][^:]*)?\s*(?:[({].*)?:")


def spelled(name):
    return name.replace("-", "_").replace("\u2032", "'")


def files(top, *ends):
    for folder, dirs, names in os.walk(top):
        dirs[:] = sorted(d for d in dirs if d not in ("out", "target", ".git"))
        for name in sorted(names):
            if name.endswith(ends):
                yield os.path.join(folder, name)


def read(path):
    with open(path, encoding="utf-8") as text:
        return text.read()


def code_of(line):
    return line.split("--")[0] if not line.lstrip().startswith("--") else ""


def with_mark(text):
    return {name for name in TOKEN.findall(text) if "-" in name or "\u2032" in name}


def kit_names(top, own_crates):
    """The kit's names that this repository cites: those that it imports from a library of the kit, and those of the kit that it has behind a dot."""
    imported, dotted, kit = set(), set(), set()
    for path in files(os.path.join(top, "crates"), ".antt", ".rt"):
        text = read(path)
        for module, names in re.findall(r"use ([\w.'\u00b7+-]+)\.\{([^}]*)\}", text):
            if module.split(".")[0] != "Rattle" or module.split(".")[1] not in own_crates:
                imported |= with_mark(names)
        dotted |= {name for name in with_mark(" ".join(re.findall(r"\.([A-Za-z][^\s(){},;.]*)", text)))}
    for path in files(KIT, ".antt", ".rt", ".md"):
        try:
            kit |= with_mark(read(path))
        except UnicodeDecodeError:
            pass
    return imported | dotted & kit


def is_answer(path):
    """A file with the proof of one function: its names are those of the kit's goals. (Answers.antt is a file of definitions or lemmas, before the port.)"""
    return os.path.basename(path) == "Proof.antt"


def declared(path):
    """The names with a hyphen or a prime that a file of definitions or lemmas has, but for what it only cites."""
    found = set()
    imported = set()
    for block in re.findall(r"use [\w.'\u00b7]+\.\{([^}]*)\}", read(path)):
        imported.update(part.split(" as ")[0].strip() for part in block.split(","))
    for line in read(path).splitlines():
        line = code_of(line)
        if line.lstrip().startswith(("use ", "ghost use ")):
            continue
        for name in TOKEN.findall(line):
            if ("-" in name or "\u2032" in name) and name not in imported:
                found.add(name)
    return found


def own_names(top):
    found = set()
    for path in files(os.path.join(top, "crates"), ".antt"):
        if not is_answer(path):
            found |= declared(path)
    return found


def renamed(text, names):
    return TOKEN.sub(lambda match: names.get(match.group(0), match.group(0)), text)


def quoted(comment, names):
    """A comment: the names that it has in backticks."""
    return re.sub(r"`[^`]*`", lambda match: renamed(match.group(0), names), comment)


def answers(text, names):
    """A file with the proof of one function: what it exports ends in `_spec`, whose other words are the function's."""
    return re.sub(r"(?m)^(pub )?([A-Za-z0-9_'+-]+-spec)\b", lambda match: (match.group(1) or "") + spelled(match.group(2)), antt(text, names))


def antt(text, names):
    lines = []
    for line in text.split("\n"):
        code = code_of(line)
        lines.append(renamed(code, names) + quoted(line[len(code):], names))
    return "\n".join(lines)


def clauses(text, names):
    """A source file: `ghost use` items, ghost fields and invariants, and clauses, which run from their word to the bracket that closes them."""
    out, depth, inside = [], 0, False
    for line in text.split("\n"):
        starts = re.match(r"\s*(?:ghost\b|requires\b|ensures\b|prove!|#\[tactic)", line) or re.search(r"\b(requires|ensures|invariant)\b[^{]*\{", line)
        if inside or (starts and not line.lstrip().startswith("//")):
            depth += line.count("{") - line.count("}")
            out.append(renamed(line, names))
            inside = depth > 0
            depth = max(depth, 0)
        else:
            out.append(line)
    return "\n".join(out)


class Turned(dict):
    """For text that port.py does not read: the names above, and those of specs/ and proofs/ that port.py turned itself."""

    def __init__(self, names, top):
        super().__init__(names)
        self.there = set()
        for path in files(os.path.join(top, "crates"), ".antt"):
            if not is_answer(path):
                self.there.update(match.group(1) for match in map(HEAD.match, read(path).splitlines()) if match)

    def get(self, name, default):
        if name in self:
            return self[name]
        marked = "-" in name or "\u2032" in name
        return spelled(name) if marked and spelled(name) in self.there else default


def page(text, names):
    return "\n".join(quoted(line, names) for line in text.split("\n"))


def edit(text, names):
    """A must-fail edit: lines of definitions, or of clauses."""
    path = re.search(r"^file: (.*)$", text, re.M).group(1)
    if path.endswith(".antt"):
        return re.sub(r"^(old|new): .*$", lambda match: renamed(match.group(0), names), text, flags=re.M)
    return re.sub(r"^(old|new): .*(requires|ensures|ghost).*$", lambda match: renamed(match.group(0), names), text, flags=re.M)


def main():
    top = os.path.join(os.path.dirname(os.path.abspath(__file__)), "..")
    own_crates = set(os.listdir(os.path.join(top, "crates")))
    kit, own = kit_names(top, own_crates), own_names(top)
    every = set()
    for path in files(os.path.join(top, "crates"), ".antt", ".rt"):
        every.update(TOKEN.findall(read(path)))
    names = {name: spelled(name) for name in own if name not in kit}
    if "--list" in sys.argv:
        print("left, since the kit has them: " + " ".join(sorted(own & kit)))
        for name in sorted(names):
            print(name, names[name], "FALLS ON A NAME THAT IS THERE" if names[name] in every else "")
        return
    turned = Turned(names, top)
    turns = {".antt": antt, ".rt": clauses, ".edit": edit, ".md": page}
    for path in list(files(os.path.join(top, "crates"), ".antt", ".rt", ".edit")) + list(files(top, ".md")):
        text, end = read(path), os.path.splitext(path)[1]
        turn = answers if is_answer(path) else turns[end]
        after = turn(text, turned if end in (".edit", ".md") else names)
        if after != text:
            with open(path, "w", encoding="utf-8") as out:
                out.write(after)


main()
