#!/usr/bin/env python3
"""Brings this repository's own definitions, lemmas, fields and constructors to today's spelling: words in snake case. Run once, after port.py.

usage: python3 tools/respell.py [--dry] [FOLDER]

What is renamed: every name that a .antt file of crates/ declares, in lower camel case (tileAt), with dashes (tile-size), or with a middle dot
(Tile·open, as tile_open); getD in a name becomes get_or, as the library has it. A part that begins with a capital stays (P1-list, as P1_list),
and the four kinds of task T-1 to T-4 become t_1 to t_4. Names that a file imports from the library stay. A goal's proof in an old Proof.antt
gets the goal's name. Must-fail edits are turned with the files that they apply to. Names that fall together in one file are listed.
It also mends what port.py leaves of values behind references: x.exit.now and x.entry.now, as x.new and x.old of a `&mut` and x.now of a `&`.
"""

import os
import re
import sys

WORD = r"[A-Za-z_Ͱ-Ͽ0-9'·*+<>≤≡≢∷∙∸-]"
TOKEN = re.compile(r"--[^\n]*|\"(?:[^\"\\]|\\.)*\"|(?:" + WORD + r")+")
RUST = re.compile(r"//[^\n]*|\"(?:[^\"\\]|\\.)*\"|'(?:[^'\\\n]|\\.)'|(?:" + WORD + r")+")
NAME = re.compile(r"^[A-Za-z][A-Za-z0-9_'·-]*$")
DECLARED = re.compile(r"^\s*(?:abbrev |unfoldable |pub |data |record |ruleset )*([^\s(){}:,;]+)(?:\s[^:=]*)?\s:(?:\s|$)")
INLINE = re.compile(r"[{;]\s*([A-Za-z][A-Za-z0-9_'-]*)\s+:\s")
CONSTRUCTOR = re.compile(r"^\s+\|?\s*([A-Za-z][A-Za-z0-9_'-]*)\s+:\s")
USE = re.compile(r"^\s*(?:pub |ghost )*use\s+([^;\n{]+?)\.\{([^}]*)\}", re.M)
FIXED = {"T-1": "t_1", "T-2": "t_2", "T-3": "t_3", "T-4": "t_4"}


LEMMAS = set()


def turned(name):
    """The name as today's spelling has it. A lemma that would have its function's name gets _lem."""
    return spelled(name) + ("_lem" if name in LEMMAS else "")


def spelled(name):
    if name in FIXED:
        return FIXED[name]
    it = name.replace("getD", "get_or")
    parts = []
    for part in re.split(r"[-·]", it):
        if part and part[0].islower():
            part = re.sub(r"(?<=[a-z0-9])([A-Z])", lambda m: "_" + m.group(1).lower(), part)
        parts.append(part)
    if "·" in it:
        parts = [p[0].lower() + p[1:] if p and p[0].isupper() else p for p in parts]
    return "_".join(p for p in parts if p)


def texts(root, ends):
    for folder, dirs, files in os.walk(os.path.join(root, "crates")):
        dirs[:] = sorted(d for d in dirs if d != "out")
        for f in sorted(files):
            if f.endswith(ends):
                yield os.path.join(folder, f)


def read(path):
    with open(path, encoding="utf-8") as f:
        return f.read()


def library_names(text, crates):
    """What a file imports from the library."""
    names = set()
    for m in USE.finditer(text):
        path = m.group(1).strip()
        mine = re.match(r"Rattle\.(\w+)", path)
        if mine and mine.group(1) in crates:
            continue
        names |= {n.strip().split(" as ")[0].strip() for n in m.group(2).split(",")}
        names |= {n.strip().split(" as ")[-1].strip() for n in m.group(2).split(",")}
    return names


def goal_name(name, sources):
    """A goal's name as Rattle makes it today: a name of the source keeps its spelling, and words of Rattle's own have underscores."""
    it = name
    for s in sources:
        it = re.sub(r"(?<![A-Za-z0-9_])" + re.escape(s.replace("_", "-")) + r"(?![A-Za-z0-9_])", s, it)
    it = re.sub(r"(?<![^-])overflow-(add|sub|mul|shl|shr|cast|step)(?![^-])", r"overflow_\1", it)
    it = re.sub(r"(?<![^-])nonzero-(div|rem)(?![^-])", r"nonzero_\1", it)
    it = re.sub(r"(?<![^-])(offset|slice)-bounds(?![^-])", r"\1_bounds", it)
    return it


def main(argv):
    dry = "--dry" in argv
    folders = [a for a in argv if not a.startswith("--")]
    root = folders[0] if folders else "."
    crates = {c for c in os.listdir(os.path.join(root, "crates"))}
    own = set()
    for p in texts(root, ".antt"):
        text = read(p)
        declared = set()
        for line in text.split("\n"):
            if line.lstrip().startswith("--"):
                continue
            for found in (DECLARED.match(line), CONSTRUCTOR.match(line)):
                if found and NAME.match(found.group(1)):
                    declared.add(found.group(1))
            declared |= set(INLINE.findall(line))
        own |= declared - library_names(text, crates)
    camel = {spelled(n) for n in own if "-" not in n and spelled(n) != n}
    snake = {n for n in own if spelled(n) == n and "_" in n}
    LEMMAS.update(n for n in own if "-" in n and spelled(n) in camel | snake and n not in FIXED)
    LEMMAS.update(snake & camel)
    own = {n for n in own | set(FIXED) if turned(n) != n}
    sources = {}
    every = set()
    for c in crates:
        names = set()
        for p in texts(root, ".rt"):
            if os.sep + c + os.sep in p:
                names |= set(re.findall(r"\b[a-z][a-z0-9]*(?:_[a-z0-9]+)+\b", re.sub(r"//[^\n]*", "", read(p))))
        sources[c] = sorted(names, key=lambda s: -len(s))
        every |= names
    fell = []

    def turn(path, text, pattern, crate, kept):
        if path.endswith(".rt"):
            kept = kept | set(sources[crate])  # a function of src/ keeps its name
        goals = {}
        if path.endswith("Proof.antt"):
            for m in re.finditer(r"^([^\s:]+) : tie\.Need-([^\s]+)", text, re.M):
                goals[m.group(1)] = goal_name(m.group(2), sources[crate])
        renamed = {}

        def one(m):
            t = m.group(0)
            if t.startswith(("--", "//", '"')) or (pattern is RUST and t.startswith("'")):
                return t
            if not NAME.match(t):
                return t
            before = text[: m.start()]
            projected = before.endswith(".")
            if re.search(r"\btie\.$", before[-6:]):
                return goal_name(t, sources[crate])
            if t in goals and not projected:
                return goals[t]
            if t in kept and (not projected or path.endswith(".rt")):
                return t
            if t in own:
                renamed[t] = turned(t)
                return turned(t)
            if projected and "-" in t:
                n = goal_name(t, sources[crate])
                return n
            if path.endswith("Proof.antt") and t.endswith("-spec"):
                return t[:-5].replace("-", "_") + "_spec"
            return t

        new = pattern.sub(one, text)
        plain = re.sub(r"^(?:pub )?(?:ghost )?use [^;{\n]*", "use ", text, flags=re.M)
        olds = {m.group(0) for m in pattern.finditer(plain) if NAME.match(m.group(0)) and not plain[: m.start()].endswith((".", "::"))}
        for a, b in renamed.items():
            clash = [o for o in olds if o != a and renamed.get(o, o) == b]
            if clash:
                fell.append(f"{path}: {a} and {', '.join(clash)}: {b}")
        return new

    def borrowed(text):
        def one(m):
            # the parameter of the function that the clause stands at
            at = text.rfind("fn ", 0, m.start())
            shared = re.search(r"\b" + m.group(1) + r": &(?!mut\b)", text[at : m.start()]) if at >= 0 else None
            return m.group(1) + (".now" if shared else {"exit": ".new", "entry": ".old"}[m.group(2)])

        return re.sub(r"(?<![\w.])(\w+)\.(exit|entry)\.now\b", one, text)

    for p in list(texts(root, (".antt", ".rt", ".edit"))):
        crate = os.path.relpath(p, os.path.join(root, "crates")).split(os.sep)[0]
        text = read(p)
        if p.endswith(".antt"):
            new = turn(p, text, TOKEN, crate, library_names(text, crates))
        elif p.endswith(".rt"):
            new = borrowed(turn(p, text, RUST, crate, library_names(text, crates)))
        else:
            m = re.search(r"^file: (\S+)", text, re.M)
            target = os.path.join(root, "crates", crate, m.group(1)) if m else ""
            kept = library_names(read(target), crates) if os.path.exists(target) else set()
            new = "\n".join(turn(p, l, TOKEN if target.endswith(".antt") else RUST, crate, kept) if l.startswith(("old: ", "new: ")) else l for l in text.split("\n"))
            if target.endswith(".rt"):
                new = borrowed(new)
        if new != text and not dry:
            with open(p, "w", encoding="utf-8") as f:
                f.write(new)
    print("\n".join(fell))
    print(f"respell: {len(own)} names; {len(fell)} places where names fall together", file=sys.stderr)


if __name__ == "__main__":
    main(sys.argv[1:])
