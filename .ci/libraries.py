"""The modules that a built library holds checked, for checks that begin with them."""
import json, os, re


def checked_by(crate):
    """Returns where the checked modules of a crate stand: in its library, or, of a static one, beside it."""
    folder = f"{crate.folder}/out/checked" if crate.is_static else crate.rlib
    return f"{folder}/toolchain/checked"


def modules_in(made):
    """Returns the name, the place and the size of each module that a library holds checked and whole. One of `rt ci` itself
    holds parts alone, which a check does not take."""
    if not os.path.isfile(f"{made}.json"):
        return []
    with open(f"{made}.json", encoding="utf-8") as listed:
        return [it for it in map(json.loads, listed) if "/" not in it[0]]


def unpacked(made, to):
    """Writes the modules that a library holds checked into a folder that a check takes them from."""
    found = modules_in(made)
    if not found:
        return
    with open(f"{made}.a", "rb") as modules:
        for name, start, size in found:
            modules.seek(start)
            text = modules.read(size)
            kernel = re.match(rb"--@ antt-checked \d+\n--@ kernel (\S+)\n", text)
            if kernel:
                file = f"{to}/{kernel[1].decode().replace('/', '_')}/{name}.oantt"
                os.makedirs(os.path.dirname(file), exist_ok=True)
                with open(file, "wb") as it:
                    it.write(text)
