#!/usr/bin/env python3
"""What rattle is called with for a crate of crates.txt, over the libraries that rt left in out/rlib/.

    tools/rattle_words.py CRATE          prints the words, one a line
    tools/rattle_words.py --sum CRATE    prints a sum of all that the crate is proved and made from
    tools/rattle_words.py --stand CRATE  ends with 0 if the libraries below are those that rt ci left
rt has no command that checks a copy of a crate, nor one that compiles a static library over what rt ci proved."""
import functools
import hashlib
import os
import re
import shutil
import sys

ROOT = os.path.dirname(os.path.dirname(os.path.realpath(__file__)))
RT = shutil.which("rt") or sys.exit("no rt on the PATH: the Rattle toolchain has it in its bin/")
KIT = os.path.dirname(os.path.dirname(os.path.realpath(RT)))


@functools.lru_cache(maxsize=None)
def listed():
    """The crates, each with the words after its name and the libraries that it uses."""
    found = {}
    with open(f"{ROOT}/crates.txt", encoding="utf-8") as it:
        for line in it:
            head, _, libraries = line.partition("#")[0].partition(":")
            if head.strip():
                name, *kind = head.split()
                found[name] = (kind, re.findall(r"\w+", libraries))
    return found


@functools.lru_cache(maxsize=None)
def below(crate):
    """The repository's libraries below a crate, each after those that it uses."""
    found = []
    for it in listed()[crate][1]:
        if it in listed():
            found += [one for one in [*below(it), it] if one not in found]
    return found


def rlibs(crate):
    return f"{ROOT}/crates/{crate}/out/rlib"


def words(crate):
    kind, libraries = listed()[crate]
    own = [it for it in libraries if it in listed()]
    of_kit = ["std", *[it for it in libraries if it not in listed()]]
    is_program = os.path.isfile(f"{ROOT}/crates/{crate}/src/main.rt")
    said = ["--crate-name", crate, "src/main.rt" if is_program else "src/lib.rt"]
    said += [word for it in of_kit for word in ("--extern", f"{it}={KIT}/rlibs/{it}.rlib")]
    said += ["-L", f"dependency={KIT}/rlibs"]
    said += [word for it in own for word in ("--extern", f"{it}={rlibs(it)}/{it}.rlib")]
    said += [word for it in below(crate) for word in ("-L", f"dependency={rlibs(it)}")]
    said += ["--antt-project", f"{KIT}/rattle/logic/antt-project.json", "--logic-built", f"{KIT}/logic_built"]
    said += ["--links", f"{crate}="]
    return said + (["--crate-type", "staticlib"] if "staticlib" in kind else [])


def stand(crate):
    """Whether the libraries below are those that rt ci left: a command that builds one itself leaves a stamp."""
    well = all(os.path.isfile(f"{rlibs(it)}/{it}.rlib/format") for it in below(crate))
    return well and not any(os.path.isfile(f"{rlibs(it)}/stamp") for it in below(crate))


@functools.lru_cache(maxsize=None)
def own_sum(crate):
    found = hashlib.sha256(repr((crate, listed()[crate])).encode())
    files = [f"{KIT}/KIT-ID", f"{KIT}/WHAT"]
    for part in ("src", "specs", "proofs"):
        walked = os.walk(f"{ROOT}/crates/{crate}/{part}")
        files += sorted(f"{at}/{name}" for at, _, names in walked for name in names)
    for file in files:
        with open(file, "rb") as it:
            found.update(repr((os.path.basename(os.path.dirname(file)), os.path.basename(file), it.read())).encode())
    return found.hexdigest()


def sum_of(crate):
    """A sum of all that the crate is proved and made from."""
    return hashlib.sha256(repr([own_sum(it) for it in [*below(crate), crate]]).encode()).hexdigest()


if __name__ == "__main__":
    of = sys.argv[-1]
    if of not in listed():
        sys.exit(f"crates.txt lists no crate {of}")
    if "--stand" in sys.argv:
        sys.exit(0 if stand(of) else 1)
    print(sum_of(of) if "--sum" in sys.argv else "\n".join(words(of)))
