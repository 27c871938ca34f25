"""Writes the front for C++20, crates/bitvec_c/include/bitvec.hpp, of the list of calls. `.ci/exports` calls it, and hands
itself over, since it has what reads the list.
"""

import re
import textwrap

# the calls whose names are words of C++ have this behind them
TOKENS, BEHIND = ("and", "or", "xor", "not"), "_with"


def name_of(call):
    """Returns the name of a call here."""
    name = "_".join(it for it in call.name.split("_") if it not in "VW")
    return name + BEHIND if name in TOKENS else name


def type_of(exports, kind):
    """Returns a type by its name in the list, or at a width."""
    if kind in exports.PLAIN:
        return f"bitvec_{kind}"
    name = exports.IN_C[kind]
    return name if name == "bool" else f"std::{name}"


def parameter(exports, name, role, widths):
    """Returns a parameter, and what the call in C is given of it."""
    way, kind = exports.role_of(name, role, widths)
    if name.endswith("order") and not role:
        return f"bitvec::order {name}", f"static_cast<std::uint8_t>({name})"
    kind = type_of(exports, kind)
    if way in ("read", "edit"):
        const = "const " if way == "read" else ""
        return f"std::span<{const}{kind}> {name}", f"{name}.data(), {name}.size()"
    return (f"{kind} &{name}", f"&{name}") if way else (f"{kind} {name}", name)


def lines_of(exports, before, items, behind, indent):
    """Returns `before(items)behind`, on one line or on more of them, none of which ends within an item."""
    items, behind = [it.replace(" ", "\xa0") for it in items], behind.replace(" ", "\xa0")
    text = f"{before}({', '.join(items)}){behind}"
    if len(indent + text) <= exports.COLUMNS:
        return (indent + text).replace("\xa0", " ")
    deeper = indent + 4 * " "
    return f"{indent}{before}(\n" + exports.filled(f"{', '.join(items)}){behind}", deeper, deeper)


def called(exports, call, widths):
    """Returns the line that calls the function in C."""
    given = [parameter(exports, name, role, widths)[1] for name, role in call.given]
    name = exports.name_at(call, widths)
    if call.result != "u8":
        return lines_of(exports, f"return {name}", given, ";", 4 * " ")
    return lines_of(exports, f"return static_cast<bitvec::status>({name}", given, ");", 4 * " ")


def head(exports, call, widths, more=""):
    """Returns the first lines of a function."""
    result = "bitvec::status" if call.result == "u8" else type_of(exports, call.result)
    given = [parameter(exports, name, role, widths)[0] for name, role in call.given]
    return lines_of(exports, f"[[nodiscard]] inline {result} {name_of(call)}", given, " noexcept {", more)


def functions(exports, call):
    """Returns the functions of a call: one for each type of words, or where no argument has it one that is told it."""
    all_widths = exports.widths_of(call)
    if not call.name.endswith("W") or exports.widest(call, "W"):
        return "\n".join(f"{head(exports, call, it)}\n{called(exports, call, it)}\n}}" for it in all_widths)
    lines = ["template <word W>", head(exports, call, all_widths[0])]
    for at, widths in enumerate(all_widths):
        body = textwrap.indent(called(exports, call, widths), 4 * " ")
        # (the last is what is left)
        asked = f"if constexpr (std::same_as<W, std::uint{widths[1]}_t>)"
        lines.append(4 * " " + ("else" if at + 1 == len(all_widths) else asked if at == 0 else f"else {asked}"))
        lines.append(body)
    return "\n".join([*lines, "}"])


def docs(exports, text, known):
    """Returns a comment, where calls and statuses have their names here."""
    text = re.sub(r"bitvec_c_(\w+?_W)\b", lambda it: f"`{known[it[1]]}`", text).replace("`*", "`")
    text = exports.NUMBERS.sub(lambda it: f"status::{it[1].lower()}" if it[1] in exports.STATUSES else f"BITVEC_{it[1]}", text)
    return exports.filled(f"{text}\xa0*/", "/* ", " * ")


def header_of(exports, jobs, template):
    """Returns the text of the header."""
    known = {call.name: name_of(call) for job in jobs for call in job.calls}
    parts, table = [], []
    for job in jobs:
        table.append(exports.filled(", ".join(name_of(it) for it in job.calls), f" *   {job.title:<14}", " *   " + 14 * " "))
        parts.append(f"/* {f' {job.title} '.center(92, '-')} */")
        if job.text:
            parts.append(docs(exports, job.text, known))
        for call in job.calls:
            text = call.text
            if call.refuses:
                text += f" Refuses with {exports.listed(call.refuses, 'or')}."
            if call.costs:
                text += f" Costs {call.costs}."
            parts.append(f"{docs(exports, text, known)}\n{functions(exports, call)}")
    statuses = ",\n".join(f"    {it.lower()} = BITVEC_{it}" for it in exports.STATUSES)
    text = template.replace("@table@", "\n".join(table).removeprefix(" *   ").strip())
    return text.replace("@statuses@", statuses).replace("@calls@", "\n\n".join(parts))
