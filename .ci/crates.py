"""What the scripts share that write of the crates: those of crates.txt, and what the docs of each say first."""
import os, re


def text_of(file):
    """Returns the text of a file, none where there is no file."""
    return open(file, encoding="utf-8").read() if os.path.isfile(file) else ""


def groups_listed():
    """Returns the groups of crates.txt by what is said of them, each with its crates and what these use."""
    said, groups = "", {}
    for line in text_of("crates.txt").split("\n"):
        if line.startswith("#"):
            said = line.removeprefix("#").strip()
        elif line.strip():
            name, _, uses = line.partition("#")[0].partition(":")
            groups.setdefault(said, {})[name.split()[0]] = uses.split()
    return groups


def crates_listed():
    """Returns each crate of crates.txt with those that it uses, directly or through others."""
    used = {}
    for group in groups_listed().values():
        for crate, uses in group.items():
            # (the highest first)
            used[crate] = [it for it in reversed(used) if it in uses or any(it in used[other] for other in uses)]
    return used


def first_sentence(crate):
    """Returns the first sentence of a crate's docs."""
    text = text_of(f"crates/{crate}/src/lib.rt") or text_of(f"crates/{crate}/src/main.rt")
    docs = " ".join(it.removeprefix("//!").strip() for it in text.split("\n") if it.startswith("//!"))
    return re.split(r"(?<=\.) ", docs)[0]
