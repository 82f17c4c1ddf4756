"""Reads the declarations of include/dethrux.h, and writes what the headers have for each function.

The name of a pointer says what it points to, and the parameter after it is its length.
"""

import pathlib
import re
import sys
import textwrap

TOP = pathlib.Path(__file__).resolve().parent.parent
WIDTH = 100
COMMENT = r"/\*\*((?:(?!\*/).)*)\*/\n"
DECLARATION = r"(DETHRUX_NODISCARD )?(const char \*|\w+ )(dethrux_\w+)\(([^()]*)\);"
CALL = re.compile(COMMENT + DECLARATION, re.DOTALL)
PARAMETER = re.compile(r"(.*[ *])(\w+)")
MACRO = re.compile(r"(DETHRUX_\w+_MAX) (\d+)\n")
# The pointers to UTF-16 that is read or changed.
UTF16 = {"utf16", "pattern", "first", "second"}

# What the comment of a form says besides, by the call.
CHUNK = "With DETHRUX_INCOMPLETE one code unit follows `read`, a leading surrogate."
SAID = {
    "to_utf8_partial": CHUNK,
    "to_wtf8_partial": CHUNK,
    "to_wtf8": "The status is never DETHRUX_INCOMPLETE.",
    "decoder_feed": "Only this call and dethrux_decoder_finish may have changed the decoder.",
    "wtf8_decoder_feed": "Only this call and dethrux_wtf8_decoder_finish may have changed the "
    "decoder. End the stream with the latter and DETHRUX_NATIVE_ENDIAN.",
    "floor_char_boundary": "The boundary is at most one code unit before the smaller of `at` and "
    "`len`.",
    "r?find": "Returns an offset in code units, or DETHRUX_NOT_FOUND.",
    "nul_offset": "Returns an offset in code units, or `len`.",
    "to_utf8_lossy_len|to_wtf8_len": "The length is at most `len * 3`.",
    "to_utf32_lossy_len": "The length is at most `len`.",
}
# The capacity that suffices for a form, and the one that a loop needs.
CAPACITIES = {
    r"to_[uw]tf8(_\w+)?": ("`len * 3`", 4),
    r"to_(utf32|latin1)(_\w+)?": ("`len`", 1),
    r"from_[uw]tf8(_\w+)?": ("`len`", 2),
    r"from_latin1": ("`len`", 1),
    r"from_utf32(_\w+)?": ("`len * 2`", 2),
    r"(wtf8_)?decoder_feed": ("`(len + 1) * 3`", 4),
    r"encoder_feed": ("`len + 1`", 2),
    r"wtf8_encoder_feed": ("`len + 2`", None),
    r"\w*encoder_finish": ("1", None),
}


class Parameter:
    """A parameter: its type and its name."""

    def __init__(self, text):
        self.type, self.name = (it.strip() for it in PARAMETER.fullmatch(text).groups())
        self.is_pointer = self.type.endswith("*")
        self.is_state = self.name in ("decoder", "encoder")
        self.size = 4 if "uint32_t" in self.type else 1


class Call:
    """A call of the header."""

    def __init__(self, comment, nodiscard, result, name, parameters):
        self.comment, self.nodiscard = comment, bool(nodiscard)
        self.is_strict = "DETHRUX_ILL_FORMED" in comment
        # The first sentence of its comment.
        self.said = " ".join(comment.replace(" * ", " ").split()).partition(". ")[0] + "."
        self.result, self.symbol, self.name = result.strip(), name, name.removeprefix("dethrux_")
        words = " ".join(parameters.split())
        self.parameters = [Parameter(it) for it in words.split(", ") if it != "void"]
        # `to` is UTF-16 if UTF-16 is what is written.
        self.writes_utf16 = bool(re.match("from_|(wtf8_)?encoder_", self.name))
        self.reads_utf16 = any(self.is_utf16(it) and it.name != "to" for it in self.parameters)

    def is_utf16(self, it):
        """Returns whether a parameter points to UTF-16."""
        is_chunk = it.name == "chunk" and "decoder_" in self.name
        return it.name in UTF16 or is_chunk or (it.name == "to" and self.writes_utf16)

    def told(self):
        """Returns the comment with the numbers of macros, and its tags."""
        text = re.sub(r"\n \* ?", r"\n", self.comment).strip()
        for macro, number in MACRO.findall((TOP / "include/dethrux.h").read_text()):
            text = text.replace(macro, number)
        text, *tags = text.split("\n@")
        return text.strip(), tags

    def pairs(self):
        """Returns each parameter with the one before it, if there is one."""
        return zip([None, *self.parameters], self.parameters)

    def has_form(self):
        """Returns whether there is a form on code units."""
        return any(map(self.is_utf16, self.parameters))


def calls():
    """Returns the calls of the header, in its order."""
    return [Call(*it) for it in CALL.findall((TOP / "include/dethrux.h").read_text())]


def looked_up(table, name):
    """Returns the value of the pattern that a name matches, or None."""
    return next((value for pattern, value in table.items() if re.fullmatch(pattern, name)), None)


def wrapped(begin, words, close):
    """Returns code that begins so and has these words, in lines that are short enough."""
    text = ", ".join(words) + close
    if len(begin + text) <= WIDTH:
        return begin + text
    # A line ends after a comma or a semicolon, but not inside arguments.
    whole = re.sub(r"(DETHRUX_\w+|(?<= ))\([^()*]*\)", lambda it: it[0].replace(" ", "\0"), text)
    indent = " " * (len(begin) - len(begin.lstrip()) + 4)
    lines = [indent]
    for piece in re.split(r"(?<=[,;]) ", whole):
        if len(lines[-1] + piece) > WIDTH:
            lines.append(indent)
        lines[-1] += piece + " "
    return "\n".join([begin, *(it.rstrip() for it in lines)]).replace("\0", " ")


def form(call):
    """Returns the form of a call on code units, with its comment."""
    return f"{comment(call)}\n{head(call)}\n{body(call)}\n}}\n"


def comment(call):
    """Returns the comment of a form."""
    said = f"Does what {call.symbol} does, on code units."
    more = [it for it in [looked_up(SAID, call.name)] if it]
    if capacity := looked_up(CAPACITIES, call.name) if call.result == "dethrux_progress" else None:
        enough, loop = capacity
        more.append(f"@param capacity {enough} suffices" + (f"; a loop needs {loop}" * bool(loop)))
    if "@" not in "".join(more) and len(" ".join([said, *more])) <= WIDTH - 7:
        return f"/** {' '.join([said, *more])} */"
    lines = textwrap.wrap(" ".join([said, *more[:-1]] if "@" in more[-1] else [said, *more]), 96)
    lines += ["", more[-1]] if "@" in more[-1] else []
    return "\n".join(["/**", *(f" * {it}".rstrip() for it in lines), " */"])


def head(call):
    """Returns the line with which the definition of a form begins."""
    parameters = []
    for it in call.parameters:
        kind = it.type.replace("void", "dethrux_unit") if call.is_utf16(it) else it.type
        if it.type != "dethrux_byte_order":
            parameters.append(f"{kind} {it.name}".replace("* ", "*"))
    macro = "DETHRUX_U16_RESULT" if call.nodiscard else "DETHRUX_U16"
    return wrapped(f"{macro} {call.result} dethrux_u16_{call.name}(", parameters, ") {")


def body(call):
    """Returns the statements of a form."""
    arguments = []
    for before, it in call.pairs():
        if it.type == "dethrux_byte_order":
            arguments.append("DETHRUX_NATIVE_ENDIAN")
        elif call.is_utf16(it):
            arguments.append(f"DETHRUX_U16_BYTES({it.name})")
        elif before and call.is_utf16(before):
            arguments.append(f"{it.name} * 2")
        elif it.name == "at":
            arguments.append("at < len ? at * 2 : len * 2" if call.result == "size_t" else "at * 2")
        else:
            arguments.append(it.name)
    made = f"{call.symbol}("
    if call.result.startswith("dethrux_"):
        lines = [wrapped(f"    {call.result} found = {made}", arguments, ");")]
        lines += [f"    found.{it} /= 2;" for it in divided_of(call)]
        return "\n".join([*lines, "    return found;"])
    if call.name in ("find", "rfind"):
        first = wrapped(f"    size_t found = {made}", arguments, ");")
        return f"{first}\n    return found == DETHRUX_NOT_FOUND ? found : found / 2;"
    begin = "    " if call.result == "void" else "    return "
    begin += "at <= len && " * (call.name == "is_char_boundary")
    is_offset = call.name in ("floor_char_boundary", "nul_offset")
    return wrapped(begin + made, arguments, ") / 2;" if is_offset else ");")


def divided_of(call):
    """Returns the fields of a result that count code units."""
    if call.result == "dethrux_progress":
        read = ["read", "error_len"] if call.is_strict else ["read"]
        return read * call.reads_utf16 + ["written"] * call.writes_utf16
    return ["valid_up_to", "error_len"]


def check(call):
    """Returns the lines that define a call's check for sanitizers."""
    before, after = [], []
    for it, length in zip(call.parameters, [*call.parameters[1:], None]):
        size = f" * {it.size}" if it.size > 1 else ""
        if it.is_state:
            # Of a state, only the fields that have a meaning must be initialized.
            before += [f"DETHRUX_WRITES({it.name}, sizeof *{it.name})"]
            before += [f"DETHRUX_READS(&{it.name}->pending_len, 1)"]
            after.append(f"DETHRUX_WROTE({it.name}, sizeof *{it.name})")
        elif it.name == "to":
            before.append(f"DETHRUX_WRITES(to, capacity{size})")
            after.append(f"DETHRUX_WROTE(to, result.written{size})")
        elif it.is_pointer:
            before.append(f"DETHRUX_READS({it.name}, {length.name}{size})")
    if call.name == "nul_offset":
        # The bytes after the NUL need no values.
        before = ["DETHRUX_WRITES(utf16, len)"]
        after = ["DETHRUX_READS(utf16, result + 2 < len ? result + 2 : len)"]
    names = ", ".join(it.name for it in call.parameters)
    parameters = ", ".join(f"{it.type} {it.name}" for it in call.parameters).replace("* ", "*")
    if call.result == "void":
        words = [call.result, call.name, f"({parameters})"]
        words.append("; ".join([*before, f"dethrux_unchecked_{call.name}({names})"]))
        return wrapped("DETHRUX_DEFINE(", words, ")")
    words = [call.result, call.name, f"({parameters})", f"({names})"]
    words += ["; ".join(it) or "(void)0" for it in (before, after)]
    return wrapped("DETHRUX_CALL(", words, ")")


def header():
    """Returns dethrux.h with what is made from its declarations."""
    text, found = (TOP / "include/dethrux.h").read_text(), calls()
    checks = [check(it) for it in found if any(one.is_pointer for one in it.parameters)]
    forms = [form(it) for it in found if it.has_form()]
    for name, lines in ("checks", "\n".join(checks)), ("forms", "\n".join(forms)):
        place = rf"/\* packaging/calls writes the {name} here\. \*/"
        text, count = re.subn(place, lambda _: lines, text)
        if count != 1:
            sys.exit(f"include/dethrux.h has no place for the {name}\n0 passed, 1 failed")
    return text


# What a comment says in Rust, by regular expressions.
RUST_WORDS = {
    r"DETHRUX_UTF16_MAX\(len\)": "[`from_utf8_max_len`]", "DETHRUX_NOT_FOUND": "`None`",
    r"DETHRUX_FROM_UTF32_MAX\(len\)": "[`from_utf32_max_len`]", "`error_len`": "its length",
    r"DETHRUX_(\w+)_MAX\(len\)": lambda it: f"[`to_{it[1].lower()}_max_len`]",
    r"DETHRUX_AROUND_START\(at\)": "`(at / 2 * 2).saturating_sub(2)`",
    "counts code units of UTF-32: ": "", "-1, 0 or 1 if": "`Less`, `Equal` or `Greater` if",
    r"DETHRUX_(\w+)": lambda it: f"[`Status::{it[1].title()}`]".replace("_", ""),
    r"dethrux_(\w+)": r"[`\1`]",
}


def said_in_rust(call):
    """Returns the lines of a function's documentation in Rust."""
    text, tags = call.told()
    parts = text.split("\n\n")
    for it in tags:
        kind, name, words = [*it.split(" ", 2), ""][:3]
        if kind == "return" and call.result == "dethrux_progress":
            parts[-1] += f". {statuses(words)}"
        elif kind == "return":
            parts.append(f"The result is {name} {words}".partition(", with one of")[0])
        elif name == "capacity":
            parts.append(f"As the length of `to`, {words}")
        elif kind == "param" and name not in ("to", "len"):
            parts.append(f"`{name}`: {words}")
    slices, lines = [it.name for it in call.parameters if it.is_pointer], []
    for part in parts:
        for old, new in RUST_WORDS.items():
            part = re.sub(old, new, part)
        part = re.sub("`len(?=`| /)", f"`{slices[0]}.len()", part) if slices else part
        part = " ".join(part.split()).rstrip(".") + "."
        lines += textwrap.wrap(part, WIDTH, initial_indent="/// ", subsequent_indent="/// ",
                               break_on_hyphens=False) + ["///"]
    return lines[:-1]


def statuses(text):
    """Returns a sentence about the statuses of a list, and one about what is not read if the input
    does not just end inside a character."""
    found = re.findall(r"- (DETHRUX_\w+): (.*?)(?=\n- |\Z)", text, re.DOTALL)
    names = [status for status, _ in found]
    more = [f". With {status}, {what}" for status, what in found
            if status == "DETHRUX_INCOMPLETE" and "the input ends" not in what]
    return f"The status is {', '.join(names[:-1])} or {names[-1]}" + "".join(more)


# A function of dethrux.hpp for code units: what is before its result, the result, its name, its
# parameters, and its body.
FUNCTION = re.compile(
    r"^((?:template <[^\n]*>\n)?(?:\[\[nodiscard\]\] )?(?:inline )?)(\S+) (\w+)"
    r"\(([^{}]*)\)( noexcept)? \{\n(.*?)^\}\n", re.DOTALL | re.MULTILINE
)


def cxx_header():
    """Returns dethrux.hpp, where each function for code units has one for bytes after it."""
    parts = re.split(
        r"(?ms)^(namespace detail \{.*?^\} // namespace detail\n)",
        (TOP / "include/dethrux.hpp").read_text(),
    )
    made = [FUNCTION.sub(lambda it: it[0] + for_bytes(*it.groups("")), it) for it in parts[::2]]
    parts[::2] = made
    return "".join(parts)


def for_bytes(before, result, name, parameters, quiet, body):
    """Returns the function for bytes that follows from one for code units, if one does."""
    parameters = " ".join(parameters.split())
    texts = re.findall(r"\butf16 (\w+)", parameters)
    if texts:
        said = "for bytes in a byte order"
        if len(texts) > 1:
            said = "for bytes, each text in its byte order"
        arguments = re.findall(r"(\w+)(?:,|$)", parameters)
        for it in texts:
            order = "order" if len(texts) == 1 else f"{it}_order"
            parameters = parameters.replace(f"utf16 {it}", f"byte_order {order}, bytes {it}")
            arguments[arguments.index(it)] = f"utf16({order}, {it})"
        chosen = "<String>" * ("String = " in before)
        begin = "    " if result == "void" else "    return "
        body = f"{begin}{name}{chosen}({', '.join(arguments)});\n"
    elif "byte_order::native" in body and parameters.startswith(("chars ", "points ")):
        said = "in bytes of a byte order"
        parameters = f"byte_order order, {parameters}"
        body = re.sub(r" *static_assert\([^;]*;\n", "", body.replace("byte_order::native", "order"))
        body = body.replace("u16string", "string").replace("_by<2>", "_by<1>")
        body = re.sub(r"([=(])\n +", lambda it: it[1] + " " * (it[1] == "="), body)
        body = "".join(wrapped_call(it) for it in body.splitlines(keepends=True))
        before, result = (it.replace("u16string", "string") for it in (before, result))
    else:
        return ""
    first, _, last = before.rpartition("\n")
    first += "\n" * bool(first)
    begin = wrapped(f"{last}{result} {name}(", parameters.split(", "), f"){quiet} {{")
    return f"\n/** Does the same {said}. */\n{first}{begin}\n{body}}}\n"


def wrapped_call(line):
    """Returns a statement in lines that are short enough."""
    if len(line) <= WIDTH + 1:
        return line
    before, equals, after = line.partition(" = ")
    return f"{before} =\n        {after}" if equals else line


def alloc_header():
    """Returns dethrux_alloc.h, where each strict function has a lossy one after it."""
    strict = r"(?ms)^DETHRUX_INLINE\w* \w+ (dethrux_(u16_)?(to|from)_utf8_(alloc|fit))\(.*?^\}\n"
    text = (TOP / "include/dethrux_alloc.h").read_text()
    return re.sub(strict, lambda it: it[0] + lossy(*it.group(0, 1, 2, 3, 4)), text)


def lossy(code, name, is_u16, way, end):
    """Returns the lossy function that follows from a strict one."""
    said = f"what {name} does, and replaces what is ill formed by U+FFFD"
    if is_u16:
        units = "on code units" if way == "to" else "to code units"
        said = f"what dethrux_{way}_utf8_lossy_{end} does, {units}"
    code = re.sub(r"(dethrux_(?:u16_)?(?:to|from)_utf8)(?=_alloc|_fit|,)", r"\1_lossy", code)
    return f"\n/** Does {said}. */\n{code}"
