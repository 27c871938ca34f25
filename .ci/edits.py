"""What the scripts share that try edits in a copy of the repository: edits, and where a crate's functions stand."""
import collections, os, re

PUB = r"(?:pub(?:\([\w:]+\))? )?"
FUNCTION = re.compile(rf"( *){PUB}(?:(?:const|final|unsafe|extern \"C\") )*fn (\w+)")
CONSTANT = re.compile(rf"( *){PUB}const (\w+): ")
# A function of a crate, or a constant, which has no body: its file, its path as a check prints it, and the lines of its
# head, its body and its end.
Function = collections.namedtuple("Function", "file path first body last")
FOLDERS = ("must-fail", "wrong")
# A clause of a function, whose fact an edit replaces; the name is empty where the clause has none.
Clause = collections.namedtuple("Clause", "function name")


def text_of(file):
    with open(file, encoding="utf-8") as it:
        return it.read()


class BadEdit(Exception):
    """Why an edit cannot be applied."""


def fact_of(text, clause):
    """Returns where the fact of a function's clause stands in a text: behind its opening brace, and at the closing one."""
    heads = [it.start() for it in re.finditer(rf"\bfn {clause.function}\b", text)]
    if len(heads) != 1:
        raise BadEdit(f"there are {len(heads)} functions {clause.function}")
    after = re.search(r"\bfn \w", text[heads[0] + 3 :])
    upto = heads[0] + 3 + after.start() if after else len(text)
    found = re.compile(rf"\bensures {clause.name} \{{" if clause.name else r"\bensures \{").search(text, heads[0], upto)
    if not found:
        raise BadEdit(f"{clause.function} has no clause {clause.name}")
    depth, end = 1, found.end()
    while depth:
        depth += {"{": 1, "}": -1}.get(text[end], 0)
        end += 1
    return found.end(), end - 1


def exchanged(text, what, new):
    """Returns the text with a piece of it replaced, which stands in it once, or with the fact of a clause replaced."""
    if isinstance(what, Clause):
        start, end = fact_of(text, what)
        return f"{text[:start]} {new} {text[end:]}"
    if text.count(what) != 1:
        raise BadEdit(f"an 'old:' text stands {text.count(what)} times, and not once: {what}")
    return text.replace(what, new)


def edit_at(file):
    """Returns the changes of an edit, each a file, a text or a clause, and what comes in its place; what its lines `by:`
    name; and the lower crate that a line `crate:` names, if there is one."""
    changes, by, path, what, lower = [], [], None, None, None
    for line in text_of(file).split("\n"):
        key, _, value = line.partition(":")
        value = value.removeprefix(" ")
        if key == "file":
            path = value.strip()
        elif key == "by":
            by.append(value.strip())
        elif key == "crate":
            lower = value.strip()
        elif key == "old":
            what = value
        elif key == "function":
            what = Clause(value.strip(), "")
        elif key == "clause":
            what = Clause(what.function, value.strip())
        elif key == "new":
            changes.append((path, what, value))
    return changes, by, lower


def edits_of(crate, folders=FOLDERS):
    """Returns the files of a crate's edits, by name."""
    found = [f"{crate}/{it}/{name}" for it in folders if os.path.isdir(f"{crate}/{it}") for name in os.listdir(f"{crate}/{it}")]
    return sorted((it for it in found if it.endswith(".edit")), key=os.path.basename)


def sources_of(crate):
    """Returns the source files of a crate, by their paths in it."""
    walked = [(at, names) for at, _, names in os.walk(f"{crate}/src")]
    return sorted(os.path.relpath(f"{at}/{it}", crate) for at, names in walked for it in names if it.endswith(".rt"))


def module_of(file):
    return [it for it in file.removeprefix("src/").removesuffix(".rt").split("/") if it not in ("lib", "main", "mod")]


def homes_of(crate):
    """Returns the module that declares each type of a crate."""
    declared = lambda file: re.findall(rf"(?m)^ *{PUB}(?:struct|enum) (\w+)", text_of(f"{crate}/{file}"))
    return {name: module_of(file) for file in sources_of(crate) for name in declared(file)}


def type_name(text):
    """Returns a type's own name, as a check prints it: `&'a BitPtr<R, O>` is BitPtr, and `u8` U8."""
    words = re.sub(r"<.*", "", text.strip().lstrip("&*")).split()
    name = re.sub(r"\W", "", words[-1].split("::")[-1]) if words else ""
    return name[:1].upper() + name[1:]


def past_parameters(text):
    """Returns a text behind the type parameters that it begins with."""
    depth = 0
    for at, char in enumerate(text if text.startswith("<") else ""):
        depth += (char == "<") - (char == ">" and text[at - 1] not in "-=")
        if not depth:
            return text[at + 1 :]
    return text


def arguments_of(text):
    """Returns the arguments of a generic type, those of types within it left whole."""
    found, depth = [""], 0
    for char in text.partition("<")[2].rpartition(">")[0]:
        depth += (char == "<") - (char == ">")
        if char == "," and not depth:
            found.append("")
        else:
            found[-1] += char
    return [it.strip() for it in found if it.strip()]


def block_of(head, word, homes):
    """Returns the path of what stands in an impl or a trait, whose head is one line of text. It begins with `/` where it is whole."""
    rest = re.split(r"\bwhere\b", past_parameters(head.split(word, 1)[1].strip()))[0]
    trait, is_of, kind = rest.partition(" for ")
    if word == "impl" and is_of:
        # (an impl of Sum<BitSel> for BitMask is BitMaskSumBitSel)
        given = [it for it in arguments_of(trait) if not re.fullmatch(r"[A-Z]\d?|'\w+", it)]
        return [type_name(kind) + type_name(trait) + "".join(map(type_name, given))]
    name = type_name(rest.split(":")[0])
    # (what a type has of its own stands in the module that declares the type)
    return ["/", *homes[name], name] if word == "impl" and name in homes else [name]


def blocks_at(lines, at, blocks, homes):
    """Returns the blocks that are open behind a line, by the depth of their heads."""
    line = lines[at]
    depth = len(line) - len(line.lstrip(" "))
    is_more = line[depth:].startswith(("//", "#", "where", "{", "}", ">")) and line[depth:] != "}"
    if line.strip() and not is_more:
        blocks = {it: path for it, path in blocks.items() if it < depth}
    head = re.match(rf"{PUB}(?:unsafe )?(impl|trait)\b", line[depth:])
    inner = re.match(rf"{PUB}mod (\w+) \{{", line[depth:])
    if head:
        whole = " ".join(it.strip() for it in lines[at : at + 12]).split("{")[0]
        return {**blocks, depth: block_of(whole, head[1], homes)}
    return {**blocks, depth: [inner[1]]} if inner else blocks


def lines_of(lines, at, indent):
    """Returns the first line of a function whose head stands at a line, the line of its body's brace and its last line."""
    last = at if lines[at].endswith("}") else next((it for it in range(at, len(lines)) if lines[it] == indent + "}"), at)
    opens = lambda it: lines[it] == indent + "{" or lines[it].endswith("{") and (it == at or lines[it].startswith(indent + ")"))
    body = next((it for it in range(at, last) if opens(it)), at)
    first = at
    # (what is said of a whole function stands at its first attribute)
    while first and re.match(r" *#\[", lines[first - 1]):
        first -= 1
    return first + 1, body + 1, last + 1


def functions_in(file, text, homes):
    """Returns the functions and constants of a file that is in the layout of `rt fmt`."""
    lines, found, blocks = text.split("\n"), [], {}
    for at, line in enumerate(lines):
        blocks = blocks_at(lines, at, blocks, homes)
        head = FUNCTION.match(line) or CONSTANT.match(line)
        if head:
            depth = len(head[1])
            above = [name for it, path in sorted(blocks.items()) if it < depth for name in path]
            path = above[above.index("/") + 1 :] if "/" in above else [*module_of(file), *above]
            last = next(it for it in range(at, len(lines)) if lines[it].endswith(";") or it == len(lines) - 1)
            rows = lines_of(lines, at, head[1]) if FUNCTION.match(line) else (at + 1, None, last + 1)
            found.append(Function(file, "::".join([*path, head[2]]), *rows))
    return found
