"""Writes a page for `man`, bitvec.3, of the list of calls. `.ci/exports` calls it, and hands itself over, since it has
what reads the list. A call stands once, with `uW` for its width.
"""

import re


def plain(text):
    """Returns a text of which nothing is a word of troff."""
    text = text.replace("\\", "\\e").replace("-", "\\-").replace("'", "\\(aq")
    return re.sub(r"(?m)^(?=\.)", r"\\&", text)


def at_widths(name):
    """Returns a name of the list as it stands on the page."""
    return "_".join(f"u{it}" if it in ("V", "W") else it for it in name.split("_"))


def name_of(call):
    """Returns the name of a call in C."""
    return f"bitvec_c_{at_widths(call.name)}"


def marked(exports, text):
    """Returns a text where names stand in bold, and parameters in italics."""
    text = exports.NUMBERS.sub(r"BITVEC_\1", text)
    text = re.sub(r"\bbitvec_c_\w+_W\b", lambda it: at_widths(it[0]), text)
    parts = re.split(r"(`[^`]*`|\bBITVEC_\w+|\bbitvec_c_\w+)", text)
    # (each second part is a name)
    for at in range(1, len(parts), 2):
        font = "I" if parts[at].startswith("`") else "B"
        parts[at] = f"\\f{font}{plain(parts[at].strip('`'))}\\fR"
    parts[::2] = [plain(it) for it in parts[::2]]
    return "".join(parts)


def prototype(exports, call):
    """Returns the lines of a call's prototype."""
    given = []
    for name, role in call.given:
        way, _, kind = role.rpartition(" ")
        if kind in ("V", "W"):
            const = "const " if way == "read" else ""
            given += [f"{const}uint{kind}_t *{name}", f"size_t {exports.COUNTS.get(name, name + '_words')}"]
        else:
            given += [it for it, _ in exports.in_c(name, role, (8, 8))]
    head = f"{exports.IN_C[call.result]} {name_of(call)}("
    if not given:
        return f"{head}void);"
    text = exports.filled(", ".join(it.replace(" ", "\xa0") for it in given), 4 * " ", 4 * " ", 72)
    return f"{head}\n{text});"


def described(exports, call):
    """Returns what is said of a call."""
    lines = [".TP", f".B {name_of(call)}", marked(exports, call.text)]
    if call.refuses:
        lines.append(marked(exports, f"Refuses with {exports.listed(call.refuses, 'or')}."))
    lines.append(marked(exports, f"Costs {call.costs}.") if call.costs else "Its cost is constant.")
    if call.inline:
        lines.append("It stands in the header, over other calls.")
    return "\n".join(lines)


def head_of(template):
    """Returns the paragraphs at the head of the header, but for its table and what is of one archive."""
    text = re.match(r"(?s)/\*(.*?)\*/", template)[1]
    paragraphs = re.sub(r"(?m)^ \* ?", "", text).split("\n\n")
    return [it for it in paragraphs[1:] if "@table@" not in it and not it.startswith("The archive ")]


def page(exports, jobs, template, package):
    """Returns the page, of which the text of the header and of the package's file say the rest."""
    version = re.search(r'(?m)^version = "(.*)"$', package)[1]
    lines = [f'.TH BITVEC 3 "" "bitvec_c {version}" "Bits in words"', ".nh", ".ad l"]
    lines += [".SH NAME", "bitvec \\- any range of bits in an array of words"]
    lines += [".SH LIBRARY", "libbitvec_c, \\-lbitvec_c, or \\fBpkg\\-config \\-\\-cflags \\-\\-libs bitvec_c\\fR", ".SH SYNOPSIS", ".nf"]
    lines += [".B #include <bitvec.h>", ".fi", ".PP", "\\fBuW\\fR is u8, u16, u32 or u64, and \\fBuV\\fR too."]
    for job in jobs:
        lines += [f".SS {job.title}", ".nf", *(plain(prototype(exports, it)) for it in job.calls), ".fi"]
    lines.append(".SH DESCRIPTION")
    for text in head_of(template):
        begin, *items = re.split(r"(?m)^- ", text)
        lines += [".PP", marked(exports, begin.strip())] if begin.strip() else []
        for it in items:
            lines += [".IP \\(bu 2", marked(exports, re.sub(r"\n +", "\n", it.strip()))]
    for job in jobs:
        lines += [f".SS {job.title}", *([marked(exports, job.text)] if job.text else [])]
        if any(kind in role for it in job.calls for _, role in it.given for kind in exports.PLAIN):
            lines.append("The header has the structs, and what each command does.")
        lines += [described(exports, it) for it in job.calls]
    lines.append(".SH RETURN VALUE")
    lines.append("Each call but \\fBbitvec_c_version\\fR returns a status, which \\fBbitvec_status_text\\fR says in words:")
    statuses = re.search(r"(?s)ENUM\(bitvec_status\).*?\};", template)[0]
    for name, number, said in re.findall(r"(?s)BITVEC_([A-Z_]+) = (\d+),? *(?:/\*(.*?)\*/)?", statuses):
        said = " ".join(said.split()).replace("none of those below", "none that there is")
        lines += [".TP", f".BR BITVEC_{name} \" ({number})\"", marked(exports, said or "it is done")]
    lines += [".SH EXAMPLES", ".nf"]
    lines.append("uint8_t source[2] = {0x0f, 0xf0}, target[3] = {0};")
    lines.append("uint8_t status = bitvec_c_copy_u8(BITVEC_MSB0, target, 3, 10, source, 2, 4, 8);")
    lines += [".fi", ".PP", "makes the target 00 3f c0."]
    return "\n".join(re.sub(r"\n+", "\n", it) for it in lines) + "\n"
