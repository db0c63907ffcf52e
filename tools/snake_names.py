#!/usr/bin/env python3
"""Brings the repository's own definitions, record fields, constructors and lemmas to snake case.

usage: python3 tools/snake_names.py        once, at the top, right after port.py

A name is the repository's if a line of an .antt file under crates/ declares it. Turned are .antt files, the ghost
parts of .rt files (`ghost use`, clauses, ghost members), must-fail edits, and code spans of comments and pages.
What is left alone: functions of src/, names that Rattle makes of code (what stands behind c., l., w., tie. or goal.,
but for our own fields), names of the kit, and what a Proof.antt declares to answer Rattle.
"""
import collections
import os
import re
import sys

KIT = ("Rattle.std", "mathlib", "native", "lib", "borrow", "Prim", "mir", "denote")
# two names that would become one in a file that has both: the law takes the ending of CONTRACT_STYLE.md
APART = {
    "bank-size": "bank_size_lem",
    "is-missing": "is_missing_lem",
    "shape-text": "shape_text_lem",
    "side-by-middle": "side_by_middle_lem",
    "get_d_rows": "get_or_rows",
    "Token-at": "IsTokenAt",
}
TOKEN = re.compile(r"[^\s(){};,\"«»`⌜⌝]+")
SPAN = re.compile(r"`[^`\n]+`")
DECLARES = re.compile(r"^\s*(?:abbrev |unfoldable )?(?:pub )?([^\s(){}:,;]+) :(?: (\S+)|$)")


def files(root, *endings):
    for folder, inner, names in os.walk(root):
        inner[:] = sorted(d for d in inner if d not in (".git", "out", "target"))
        for name in sorted(names):
            if name.endswith(endings):
                yield os.path.join(folder, name)


def snake(n):
    if n in APART:
        return APART[n]
    if n.startswith("◌") or n[0].isupper() and "-" not in n:
        return n
    n = n.replace("-", "_")
    return re.sub(r"(?<=[a-z0-9])([A-Z])", lambda m: "_" + m.group(1).lower(), n)


def locals_of():
    """Variables and module aliases with a dash, outside the files that answer Rattle."""
    kit, heads, modules = set(), set(), set()
    for path in files("crates", ".antt"):
        text = "\n".join(l for l in read(path).split("\n") if not l.lstrip().startswith("--"))
        for where, items in re.findall(r"^\s*(?:pub )?use ([^\s;{]+)\.\{([^}]*)\}", text, re.M):
            if not where.startswith("Rattle.") or where.startswith("Rattle.std"):
                kit.update(i.strip().split(" as ")[0] for i in items.split(","))
        modules.update(re.findall(r" as ([a-z]+-[a-z-]+)\s", text))
        if not path.endswith("/Proof.antt"):
            heads.update(re.sub(r"[:.]+$", "", m.group(0)).split(".")[0] for m in TOKEN.finditer(text))
    return {h for h in heads - kit - modules if re.search(r"[a-z]-[a-z0-9]", h)}, modules


def read(path):
    with open(path, encoding="utf-8") as f:
        return f.read()


def declared():
    names, fields = set(), set()
    for path in files("crates", ".antt"):
        proof = path.endswith("/Proof.antt")
        record = None
        for line in read(path).split("\n"):
            if line.strip().startswith("--") or not line.strip():
                continue
            indent = len(line) - len(line.lstrip())
            if record is not None and indent <= record:
                record = None
            if re.match(r"^\s*(pub )?record ", line) and line.rstrip().endswith("where"):
                record = indent
                continue
            m = DECLARES.match(line)
            if not m:
                continue
            n, kind = m.group(1), m.group(2) or ""
            if record is not None:
                fields.add(n)
            elif not (proof and (kind.startswith("tie.") or n.endswith(("-spec", "_spec")))):
                names.add(n)
    ALL.update(snake(n) for n in names | fields)
    turns = lambda ns: {n: snake(n) for n in ns if snake(n) != n}
    return turns(names), turns(fields)


NAMES, FIELDS, MODULES = {}, {}, {}
ALL = set()  # as they are spelled in the end
MADE = re.compile(r"^(c|l|w|tie|goal|self|result)$")


def token(text):
    """One token: parts joined by dots. The first part is a name; one behind a module is a name; one behind a value is a field."""
    head, *rest = text.split(".")
    out = [NAMES.get(head) or FIELDS.get(head) or MODULES.get(head, head)]
    module = head[:1].isupper() or head in MODULES
    made = bool(MADE.match(head))
    for part in rest:
        if module and not made:
            out.append(NAMES.get(part) or FIELDS.get(part, part))
            module = part[:1].isupper()
        else:
            out.append(part if head == "tie" or head == "goal" else FIELDS.get(part, part))
    return ".".join(out)


def code(text):
    return TOKEN.sub(lambda m: word(m.group(0)), text)


def word(text):
    """A word may hold a name with a trailing mark, as in `(x)` or 'a:'."""
    m = re.match(r"^(\.?)(.*?)([:.?!]*)$", text, re.S)
    if m.group(1):  # a bare projection, as .f
        return m.group(1) + ".".join(FIELDS.get(p, p) for p in m.group(2).split(".")) + m.group(3)
    return token(m.group(2)) + m.group(3) if m.group(2) else text


LISTED = re.compile(r"(?<![\w`\"-])[a-z]\w*(?:-\w+)+(?![\w`\"-])")


def late(m):
    """Pages and comments still have the names that port.py turned."""
    return snake(m.group(0)) if snake(m.group(0)) in ALL else m.group(0)


def spans(text):
    return SPAN.sub(lambda m: TOKEN.sub(late, code(m.group(0))), text)


def antt(text, path):
    out = []
    own = set()
    if path.endswith("/Proof.antt"):  # what it declares for Rattle keeps its name in that file
        for line in text.split("\n"):
            m = DECLARES.match(line)
            if m and ((m.group(2) or "").startswith("tie.") or m.group(1).endswith(("-spec", "_spec"))):
                own.add(m.group(1))
    kept = {n: NAMES.pop(n) for n in own if n in NAMES}
    for line in text.split("\n"):
        if line.lstrip().startswith("--"):
            out.append(LISTED.sub(lambda m: late(m), spans(line)) if line.startswith("--     ") else spans(line))
        else:
            out.append(code(line))
    NAMES.update(kept)
    return "\n".join(out)


def rt(text, path):
    out = []
    for line in text.split("\n"):
        s = line.lstrip()
        if s.startswith("//"):
            out.append(spans(line))
        elif re.match(r"(ghost |requires|ensures|invariant)", s):
            out.append(code(line))
        else:
            out.append(line)
    return "\n".join(out)


def main():
    names, fields = declared()
    inner, modules = locals_of()
    NAMES.update({n: snake(n) for n in inner} | names)
    FIELDS.update(fields)
    MODULES.update({n: snake(n) for n in modules})
    if "--list" in sys.argv:
        for n in sorted(NAMES | FIELDS):
            print(n, (NAMES | FIELDS)[n], "field" if n in FIELDS else "")
        return
    turned = 0
    for path in files(".", ".antt", ".rt", ".edit", ".md"):
        old = read(path)
        if path.endswith(".antt"):
            new = antt(old, path)
        elif path.endswith(".rt"):
            new = rt(old, path)
        elif path.endswith(".edit"):
            new = code(old) if old.startswith("file: specs/") or "requires" in old or "ensures" in old else old
        else:
            new = spans(old)
        if new != old:
            turned += 1
            with open(path, "w", encoding="utf-8") as f:
                f.write(new)
    print(f"{len(NAMES)} names and {len(FIELDS)} fields; {turned} files turned")


main()
