"""Contracts in ACSL, made of the promises of crates/bitvec_c/calls and of what crates/bitvec_c/acsl says of each record.

A promise is read as what it is, a term: names with their arguments, `let`, `λ`, and a few signs between two terms. Its head
is a record that crates/bitvec_c/acsl has, and a list of bits is a length, and for each place what the bit is.
"""

import collections
import re

# the bits of a memory from a place on, at one of the times Pre and Post
Operand = collections.namedtuple("Operand", "bits order start words memory time")
# a list of bits: how many, the place that the first has where it is asked, the bit of an index, written as in ACSL, and the
# operand of which they are
Bits = collections.namedtuple("Bits", "length base bit of", defaults=(None,))
# an array at one of these times
Memory = collections.namedtuple("Memory", "name time")
# what a λ is
Function = collections.namedtuple("Function", "names body names_there")

TOKEN = re.compile(r"[()]|[^\s()]+")
SIGNS = {"≡": 1, "↔": 1, "++": 2, "-": 3}


class BadPromise(Exception):
    """Why there is no contract of a promise."""


class Truth(str):
    """A text that is a predicate, or a number in C that is a truth value."""


class Reader:
    """Reads a term."""

    def __init__(self, text):
        self.left = TOKEN.findall(text)[::-1]

    def sees(self, *words):
        return bool(self.left) and self.left[-1] in words

    def term(self, level=0):
        if self.sees("let"):
            self.left.pop()
            name = self.left.pop()
            self.left.pop()
            what = self.term()
            if self.left.pop() != "in":
                raise BadPromise("a `let` has no `in`")
            return ("let", name, what, self.term())
        if self.sees("λ"):
            self.left.pop()
            names = []
            while not names or not names[-1].endswith("."):
                names.append(self.left.pop())
            return ("λ", [it.strip(".") for it in names], self.term())
        left = self.applied()
        while self.left and SIGNS.get(self.left[-1], 0) > level:
            sign = self.left.pop()
            left = ("call", sign, [left, self.term(SIGNS[sign] - (sign == "++"))])
        return left

    def applied(self):
        parts = []
        while self.left and not self.sees(")", "in", *SIGNS):
            if self.sees("λ", "let"):
                parts.append(self.term())
            elif self.sees("("):
                self.left.pop()
                parts.append(self.term())
                if not self.left or self.left.pop() != ")":
                    raise BadPromise("a bracket is not closed")
            else:
                parts.append(("name", self.left.pop()))
        if len(parts) == 1:
            return parts[0]
        return ("apply", parts[0], parts[1:])


def read_term(text):
    """Returns the term of a text."""
    reader = Reader(text)
    found = reader.term()
    if reader.left:
        raise BadPromise(f"`{' '.join(reader.left[::-1])}` is left of `{text}`")
    return found


def plus(a, b):
    """Returns a sum."""
    if a == "0":
        return b
    if b == "0":
        return a
    # (the place itself, where it is counted from the same start)
    if b.endswith(f" - {a}") and re.fullmatch(r"\w+ - \S+", b):
        return b.removesuffix(f" - {a}")
    if b.endswith(f" - {a})") and re.fullmatch(r"\(\w+ - \S+\)", b):
        return b[1:].removesuffix(f" - {a})")
    return f"{a} + {b}"


def less(a, b):
    """Returns a difference."""
    return a if b == "0" else f"({a} - {b})"


def alike(a, b):
    """Returns that two truth values are the same."""
    for one, other in ((a, b), (b, a)):
        if other == r"\true":
            return Truth(one)
        if other == r"\false":
            return turned(one)
    return Truth(f"({a} <==> {b})")


def turned(a):
    """Returns the other truth value."""
    known = {r"\true": r"\false", r"\false": r"\true"}
    return Truth(known.get(a) or (a[1:] if a.startswith("!") else f"!{a}"))


def between(var, low, high):
    """Returns that a variable has no less than one bound, and less than another."""
    return f"{low} <= {var} < {high}"


def bits_of(operand, count):
    """Returns the first bits of an operand."""
    name = f"bit_u{operand.bits}{{{operand.time}}}"
    return Bits(count, operand.start, lambda i: Truth(f"{name}({operand.order}, {operand.memory}, {plus(operand.start, i)})"), operand)


def joined(a, b):
    """Returns a list behind another."""

    def bit(i):
        return Truth(f"(({i} < {a.length} && {a.bit(i)}) || ({a.length} <= {i} && {b.bit(less(i, a.length))}))")

    return Bits(f"({a.length} + {b.length})", a.base or b.base, bit)


def all_of(xs, low, high, fact):
    """Returns that each index of a list from one to before another is so; what is said of it is said of its place."""
    base = xs.base or "0"
    what = fact("p" if base == "0" else f"(p - {base})")
    return Truth(f"(\\forall integer p; {between('p', plus(base, low), plus(base, high))} ==> {what})")


def same_list(xs, ys):
    """Returns that the lists, which are as long, have the same bits; the places are those of the first."""
    return all_of(xs, "0", xs.length, lambda i: alike(xs.bit(i), ys.bit(i)))


class Maker:
    """Makes contracts by the records of crates/bitvec_c/acsl."""

    def __init__(self, records, words):
        self.records = records
        # the name of the number of words of each memory
        self.words = words

    def value(self, term, names):
        kind = term[0]
        if kind == "name":
            return self.named(term[1], names)
        if kind == "let":
            return self.value(term[3], {**names, term[1]: self.value(term[2], names)})
        if kind == "λ":
            return Function(term[1], term[2], names)
        if kind == "call":
            return self.sign(term[1], [self.value(it, names) for it in term[2]])
        return self.applied(self.value(term[1], names), [self.value(it, names) for it in term[2]])

    def named(self, name, names):
        if name in names:
            return names[name]
        # (a letter is a variable of the text about a term)
        if name.isdigit() or re.fullmatch("[a-z]", name):
            return name
        own = {"true": Truth(r"\true"), "false": Truth(r"\false")}
        if name in own:
            return own[name]
        operand, _, part = name.partition(".")
        if part and isinstance(names.get(operand), Operand):
            return getattr(names[operand], part)
        return (name, [])

    def sign(self, sign, given):
        a, b = given
        if sign == "++":
            return joined(a, b)
        if sign == "-":
            return less(a, b)
        return alike(a, b) if isinstance(a, Truth) or isinstance(b, Truth) else Truth(f"{a} == {b}")

    def applied(self, head, given):
        if not given:
            return head
        if isinstance(head, Function):
            now = {**head.names_there, **dict(zip(head.names, given))}
            if len(given) < len(head.names):
                return Function(head.names[len(given) :], head.body, now)
            return self.applied(self.value(head.body, now), given[len(head.names) :])
        if not isinstance(head, tuple) or isinstance(head, (Operand, Bits, Memory)):
            raise BadPromise(f"`{head}` is given arguments")
        name, before = head
        given = before + given
        own = getattr(self, f"a_{name.replace('++', '')}", None)
        if re.fullmatch(r"u\d+_at", name):
            if len(given) < 3:
                return (name, given)
            memory, time = given[2]
            bits = re.match(r"u(\d+)", name)[1]
            return Operand(bits, given[0], given[1], self.words[memory], memory, time)
        if own:
            return own(*given) if len(given) >= own.__code__.co_argcount - 1 else (name, given)
        if name in self.records:
            names, facts = self.records[name]
            if len(given) < len(names):
                return (name, given)
            return self.facts_of(facts, dict(zip(names, given)))
        raise BadPromise(f"nothing says what `{name}` is")

    def facts_of(self, facts, names):
        """Returns what a record says, each with its label, where its parameters are these."""
        made = []
        for label, text in facts:
            if label.startswith("let "):
                names[label.removeprefix("let ")] = self.value(read_term(text), names)
            else:
                made.append((label, self.filled(text, names)))
        return made

    # The words that promises, and what is said of the records, are made of.

    def a_not(self, a):
        return turned(a)

    def a_both(self, a, b):
        return Truth(f"({a} && {b})")

    def a_either(self, a, b):
        return Truth(f"({a} || {b})")

    def a_differ(self, a, b):
        return Truth(f"({a} ^^ {b})")

    def a_but_not(self, a, b):
        return Truth(f"({a} && {turned(b)})")

    def a_iff(self, a, b):
        return alike(a, b)

    def a_map(self, f, xs):
        return Bits(xs.length, xs.base, lambda i: self.applied(f, [xs.bit(i)]))

    def a_zip_with(self, f, xs, ys):
        return Bits(xs.length, xs.base, lambda i: self.applied(f, [xs.bit(i), ys.bit(i)]))

    def a_reverse(self, xs):
        return Bits(xs.length, xs.base, lambda i: xs.bit(f"({xs.length} - 1 - {i})"))

    def a_replicate(self, count, bit):
        return Bits(count, "", lambda i: bit)

    def a_drop(self, by, xs):
        return Bits(less(xs.length, by), xs.base, lambda i: xs.bit(f"({i} + {by})"))

    def a_take(self, by, xs):
        return Bits(by, xs.base, xs.bit)

    def a_length(self, xs):
        return self.words[xs.name] if isinstance(xs, Memory) else xs.length

    def a_complement_of(self, count, number):
        return f"complement_of({count}, {number})"

    def a_after(self, i):
        return f"{i} + 1"

    def a_least(self, a, b):
        return f"({a} < {b} ? {a} : {b})"

    def a_left(self, it, end):
        return f"left_of({it.start}, {end})"

    def a_spans_conditions(self, bits, order, spans, words):
        count = self.words[spans.name]
        number = f"{count} <= 64 ? BITVEC_OK : BITVEC_TOO_MANY_SPANS"
        return f"is_spans_status{{Pre}}(\\result, {bits}, {order}, {number}, {spans.name}, {count}, {words})"

    def a_roomy_conditions(self, bits, order, spans, words, room):
        count = self.words[spans.name]
        number = f"{room} == {count} ? BITVEC_OK : BITVEC_NO_ROOM"
        return f"is_spans_status{{Pre}}(\\result, {bits}, {order}, {number}, {spans.name}, {count}, {words})"

    def a_bits(self, operand, count):
        return bits_of(operand, count)

    def a_first(self, operand):
        return bits_of(operand, "1").bit("0")

    def a_element(self, xs, i):
        return xs.bit(i)

    def a_becomes(self, new, count, xs):
        return same_list(bits_of(new, count), xs)

    def a_same_bits(self, it, other, count):
        return same_list(bits_of(it, count), bits_of(other, count))

    def a_AllAre(self, bit, xs):
        return all_of(xs, "0", xs.length, lambda i: alike(xs.bit(i), bit))

    def a_all(self, bit, xs, low, high):
        return all_of(xs, low, high, lambda i: alike(xs.bit(i), bit))

    def a_some(self, xs):
        return turned(all_of(xs, "0", xs.length, lambda i: turned(xs.bit(i))))

    def a_all_free(self, xs, i, zeros):
        """The bits are there and false."""
        it = xs.of
        return Truth(f"free_u{it.bits}{{{it.time}}}({it.order}, {it.memory}, {it.start}, {xs.length}, {i}, {zeros})")

    def a_all_free_from(self, xs, i, start, zeros, multiple_of):
        multiple = f"({multiple_of} == 0 || {i} % {multiple_of} == 0)"
        return Truth(f"({start} <= {i} && {multiple} && {self.a_all_free(xs, i, zeros)})")

    def a_ones_in(self, xs):
        it = xs.of
        return f"ones_u{it.bits}{{{it.time}}}({it.order}, {it.memory}, {it.start}, {xs.length})"

    def a_zeros_in(self, xs):
        return less(xs.length, self.a_ones_in(xs))

    def a_IsTrue(self, a):
        return a

    def filled(self, text, names):
        """Returns a text where each `$name`, and each `$(term)`, is what it is."""
        made, at = "", 0
        while (next_at := text.find("$", at)) >= 0:
            made += text[at:next_at]
            found = re.compile(r"\$(\w+(?:\.\w+)?)").match(text, next_at)
            if found:
                inner, at = found[1], found.end()
            else:
                depth, end = 1, next_at + 2
                while depth:
                    depth += {"(": 1, ")": -1}.get(text[end], 0)
                    end += 1
                inner, at = text[next_at + 2 : end - 1], end
            value = self.value(read_term(inner), names)
            if isinstance(value, list):
                value = " && ".join(f"({it})" if len(value) > 1 else it for _, it in value)
            if not isinstance(value, str):
                raise BadPromise(f"`{inner}` is no text")
            made += value
        return made + text[at:]


INNER = re.compile(r"\([^()]*\)")


def is_clear(clause):
    """Returns whether no `<==>` stands beside a `==>` without brackets, of which it would take the left side too."""
    parts = []
    while found := INNER.search(clause):
        parts.append(found[0])
        clause = clause.replace(found[0], "")
    return not any("<==>" in it and "==>" in it.replace("<==>", "") for it in [*parts, clause])


RECORD = re.compile(r"(?m)^([A-Z]\w*)((?: \w+)*)\n((?:    .*\n?)+)")
FACT = re.compile(r"    (always |let )?(\w+): (.*)")


def read_records(text):
    """Returns the words of contracts, once and of each width, and the records with what they say."""
    parts = re.split(r"(?m)^== (.*) ==\n", text)
    named = dict(zip(parts[1::2], parts[2::2]))
    records = {}
    for name, given, lines in RECORD.findall(named["records"]):
        facts = [FACT.fullmatch(it) for it in lines.rstrip("\n").split("\n")]
        if not all(facts):
            raise BadPromise(f"what is said of {name} cannot be read")
        records[name] = given.split(), [((it[1] or "") + it[2], it[3]) for it in facts]
    return named["once"].strip("\n"), named["of each width"].strip("\n"), records


def clauses(maker, given, promises, result):
    """Returns the clauses of a contract. A parameter is its name, the way that it is handed over, its type, and the name of
    the number of its items."""
    names, arrays = {"result": r"\result", "version": "BITVEC_VERSION"}, []
    requires, assigned = [], []
    for name, way, kind, count in given:
        if way in ("read", "edit"):
            names |= {f"{name}.{it}": Memory(name, "Post" if it == "new" else "Pre") for it in ("now", "old", "new")}
            valid = "valid_read" if way == "read" else "valid"
            requires.append(f"requires \\{valid}({name} + (0 .. {count} - 1));")
            arrays.append((way, f"{name} + (0 .. {count} - 1)"))
            assigned += [f"{name}[0 .. {count} - 1]"] * (way == "edit")
        elif way:
            text = Truth if kind == "bool" else str
            names |= {f"{name}.new": text(f"*{name}"), f"{name}.old": text(f"\\old(*{name})")}
            requires.append(f"requires \\valid({name});")
            arrays.append((way, name))
            assigned.append(f"*{name}")
        else:
            names[name] = (Truth if kind == "bool" else str)(name)
    for at, (way, name) in enumerate(arrays):
        for other_way, other in arrays[at + 1 :]:
            if "read" != way or "read" != other_way:
                requires.append(f"requires \\separated({name}, {other});")
    ensures = []
    for _, promise in promises:
        facts = maker.value(read_term(promise), names)
        for label, fact in [("alwaysstatus", facts)] if isinstance(facts, str) else facts:
            if label == "status":
                ensures.append(f"ensures status: \\result == {fact};")
            elif label == "kept":
                ensures.append(f"ensures refused: \\result != BITVEC_OK ==> {fact};")
            elif label.startswith("always"):
                ensures.append(f"ensures {label.removeprefix('always').strip()}: {fact};")
            else:
                ensures.append(f"ensures {label}: \\result == BITVEC_OK ==> {fact};")
    if unclear := [it for it in ensures if not is_clear(it)]:
        raise BadPromise(f"`{unclear[0]}` needs brackets")
    return [*requires, f"assigns {', '.join(assigned) or chr(92) + 'nothing'};", *ensures]
