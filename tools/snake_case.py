#!/usr/bin/env python3
"""Brings this repository's own definitions and lemmas to today's spelling: words in snake case.

usage: python3 tools/snake_case.py [FOLDER]     once, after /opt/rattle/port/port.py, at the top of the repository

A dash and a camel hump become an underscore, and getD, which the library now calls get_or, becomes get_or. Types,
modules, functions of src/, exported C names, strings and the library's names keep theirs. Names that fall together
with another of the same file are told, and the file is left to be mended by hand: nothing is guessed.
"""

import os
import re
import sys

TOKEN = re.compile(r"[^\s(){}\[\],;:.\"`←↦|¬]+")
HUMP = re.compile(r"(?<=[a-z0-9ℤℕ'])([A-Z])")
OWN_DASH = re.compile(r"(?<=[^\s-])-(?=[^\s-])")
USE_PATH = re.compile(r"^\s*(?:pub )?(?:ghost )?use [^\s{]+")
USE = re.compile(r"^\s*(?:pub )?(?:ghost )?use (\S+?)(?:\.\{(.*)\})?(?: as (\S+?))?;?$")
DEFINED = re.compile(r"^\s*(?:abbrev |unfoldable |pub |opaque )*([^\s(){}\[\],;:]+) (?:\{[^}]*\} |\([^)]*\) )*: ")
# Lemmas and fields that would now have the name of the definition that they speak of: as the guide on style says, such
# a lemma ends in _lem. The first are those that port.py had turned already.
TURNED_BEFORE = {"in_order", "rule_fits", "width_fits", "word_fits", "mask_fits", "out_of_range"}


def is_word(name):
    return bool(re.match(r"[a-zℤℕ≈]", name)) and bool(HUMP.search(name) or OWN_DASH.search(name))


def snake(name):
    name = re.sub(r"getD(?![a-z])", "get_or", name)
    name = OWN_DASH.sub("_", name)
    name = HUMP.sub(lambda m: "_" + m.group(1), name)
    return re.sub(r"[A-Z]", lambda m: m.group(0).lower(), name)


def crates(root):
    for name in sorted(os.listdir(os.path.join(root, "crates"))):
        folder = os.path.join(root, "crates", name)
        if os.path.isdir(os.path.join(folder, "src")):
            yield folder


def files(folder, ending):
    for where, dirs, names in os.walk(folder):
        dirs[:] = sorted(d for d in dirs if d != "out")
        for n in sorted(names):
            if n.endswith(ending):
                yield os.path.join(where, n)


def read(path):
    with open(path, encoding="utf-8") as f:
        return f.read()


def joined_uses(text):
    """The `use` items of a file, each on one line."""
    return re.sub(r"\{[^{}]*\}", lambda m: " ".join(m.group(0).split()), text)


def library_names(text):
    """The names that a file takes from a library, and the prefixes that stand for a library's module."""
    names, prefixes = set(), set()
    for line in joined_uses(text).splitlines():
        m = USE.match(line)
        if not m or m.group(1).split(".")[0:1] == ["Rattle"] and m.group(1).split(".")[1] in OWN_CRATES:
            continue
        if m.group(2) is None:
            prefixes.add(m.group(3) or m.group(1).split(".")[-1])
        for it in (m.group(2) or "").split(","):
            it = it.strip()
            if it:
                names.add(it.split(" as ")[0].strip())
    return names, prefixes


OWN_CRATES = set()


def turned(name, generated):
    """The name's new spelling; a generated name stands for a function of src/, so it takes no ending."""
    new = snake(name)
    if not generated and (new in DEFINITIONS if "-" in name else name in TURNED_BEFORE):
        return new + "_lem"
    return new


def turned_line(line, wanted, skip, prefixes, comments, generated):
    """The line with its names turned. `wanted` says of a name whether it is the repository's own."""
    code, mark, rest = line, "", ""
    at = line.find(comments)
    if at >= 0 and not re.match(r"\S", line[max(0, at - 1):at].strip() or " "):
        code, mark, rest = line[:at], comments, line[at + len(comments):]
    if comments == "//" and '"' in code:
        return line
    out, last = [], 0
    for m in TOKEN.finditer(code):
        t = m.group(0)
        before = code[:m.start()]
        q = re.search(r"([^\s(){}\[\],;:.\"]+)\.$", before)
        path = USE_PATH.match(code)
        if path and m.end() <= path.end():
            continue
        if t in skip or q and q.group(1) in prefixes or not wanted(t):
            continue
        if is_word(t) or t in TURNED_BEFORE and comments == "--":
            out.append(code[last:m.start()] + turned(t, generated and before.endswith(".")))
            last = m.end()
    out.append(code[last:])
    if rest:
        # in a comment a dash may be English: only a hump tells a name
        rest = TOKEN.sub(lambda m: snake(m.group(0)) if HUMP.search(m.group(0)) and "-" not in m.group(0)
                         and m.group(0) in GLOBAL and m.group(0) not in skip else m.group(0), rest)
    return "".join(out) + mark + rest


# what the files define, and of these what has no dash: definitions, which keep their name before a lemma does
GLOBAL = set()
DEFINITIONS = set()


def is_function_folder(path):
    return os.sep + "proofs" + os.sep in path and os.path.basename(os.path.dirname(path)) != "proofs"


def told(path, old, new, root):
    if path.endswith(".edit"):
        return
    became = {}
    for l, k in zip(old.split("\n"), new.split("\n")):
        if not l.strip().startswith(("--", "//")) and not USE_PATH.match(l):
            for t, u in zip(TOKEN.findall(l), TOKEN.findall(k)):
                became.setdefault(u, set()).add(t)
    for u, ts in sorted(became.items()):
        if len(ts) > 1:
            print(f"look: {os.path.relpath(path, root)}: {', '.join(sorted(ts))} are one name now: {u}")


def main(argv):
    root = os.path.abspath(argv[0] if argv else ".")
    OWN_CRATES.update(os.path.basename(c) for c in crates(root))
    for c in crates(root):
        for p in files(c, ".antt"):
            if is_function_folder(p):
                continue
            text = read(p)
            skip, _ = library_names(text)
            for line in text.splitlines():
                m = DEFINED.match(line)
                if m and not line.strip().startswith("--") and m.group(1) not in skip:
                    GLOBAL.add(m.group(1))
            # local names under another one: `as`
            for m in re.finditer(r"\bas ([^\s,{}\[\]]+)", joined_uses(text)):
                GLOBAL.add(m.group(1))
        for p in files(c, ".rt"):
            for m in re.finditer(r"\bas ([^\s,{}\[\];]+)", "\n".join(l for l in read(p).splitlines() if l.startswith("ghost use"))):
                GLOBAL.add(m.group(1))
    DEFINITIONS.update(snake(t) for t in GLOBAL if "-" not in t and t not in TURNED_BEFORE and (is_word(t) or "_" in t))
    n = 0
    for c in crates(root):
        for p in list(files(c, ".antt")) + list(files(c, ".rt")) + list(files(c, ".edit")):
            text = read(p)
            skip, prefixes = library_names(text)
            if p.endswith(".antt") and not is_function_folder(p):
                lines = [turned_line(l, lambda t: True, skip, prefixes, "--", False) for l in text.split("\n")]
            elif p.endswith(".antt"):
                prefixes |= {"tie"}
                lines = [turned_line(l, lambda t: t in GLOBAL, skip, prefixes, "--", True) for l in text.split("\n")]
            elif p.endswith(".rt"):
                lines = [turned_line(l, lambda t: t in GLOBAL, skip, prefixes, "//", False) for l in text.split("\n")]
            else:
                lines = [turned_line(l, lambda t: t in GLOBAL, skip, prefixes, "\0", False) if not l.startswith(("file:", "#")) else l for l in text.split("\n")]
            new = "\n".join(lines)
            if new != text:
                told(p, text, new, root)
                with open(p, "w", encoding="utf-8") as f:
                    f.write(new)
                n += 1
    print(f"{n} files turned")


if __name__ == "__main__":
    main(sys.argv[1:])
