"""Lines of a text: their words, names, numbers, and the expressions that stand for numbers.

A text is bytes; here each character is one byte, so that a quoted name holds whatever its bytes are.
"""

import re

from .trouble import Fault, shown

BARE = re.compile(r"[A-Za-z0-9_.-]+\Z")
BLANKS = " \t\v\f"
PLAIN = re.compile(rf"[^{BLANKS}]+")
BLANK = re.compile(rf"[{BLANKS}]*")
ENDS = ("", "#", *BLANKS)
PART = re.compile(rf'[^{BLANKS}"#$]+|\$')
QUOTED = re.compile(r'"(?:[^"\\]|\\.)*"')
ESCAPE = re.compile(r'\\(?:(["\\])|x([0-9a-fA-F]{2}))')
NUMBER = re.compile(r"[+-]?(?:0[xX][0-9a-fA-F]+(?:_[0-9a-fA-F]+)*|[0-9]+(?:_[0-9]+)*)\Z")
POINTED = re.compile(r"[+-]?[0-9]*([.,][0-9]+)+\Z")
VARIABLE = re.compile(r"[a-z]+")
TOKEN = re.compile(rf"[{BLANKS}]*(0[xX][0-9a-fA-F]+|[0-9][0-9_]*|[a-z]+|//|[-+*%()])[{BLANKS}]*")
DEEPEST = 40
LARGEST = 1 << 64


def lines_of(name, data):
    """The lines of a text, ended by line feed, carriage return or both; a byte order mark is passed over."""
    if data[:2] in (b"\xff\xfe", b"\xfe\xff"):
        raise Fault(f"{name} is UTF-16: save it as UTF-8")
    text = data.removeprefix(b"\xef\xbb\xbf").decode("latin-1")
    return text.replace("\r\n", "\n").replace("\r", "\n").split("\n")


def split_words(line):
    """The words of a line without its comment; quoted ones keep their quotes."""
    return [line[at:end] for at, end in word_spans(line)]


def word_spans(line):
    """Where each word of a line begins and ends."""
    if '"' not in line and "$" not in line:
        return [word.span() for word in PLAIN.finditer(line.partition("#")[0])]
    spans, at = [], BLANK.match(line).end()
    while at < len(line) and line[at] != "#":
        end = word_end(line, at)
        spans.append((at, end))
        at = BLANK.match(line, end).end()
    return spans


def word_end(line, at):
    """Where the word that begins here ends."""
    if line[at] == '"':
        quoted = QUOTED.match(line, at)
        if not quoted:
            raise Fault("a quote is not closed")
        if line[quoted.end() : quoted.end() + 1] not in ENDS:
            raise Fault("a blank is missing behind a quote")
        return quoted.end()
    while line[at : at + 1] not in ENDS:
        if line[at] == '"':
            raise Fault("a blank is missing before a quote")
        at = closing(line, at + 1) if line.startswith("$(", at) else PART.match(line, at).end()
    return at


def closing(line, at):
    """Where the parenthesis at this place is closed."""
    depth = 0
    for place in range(at, len(line)):
        depth += (line[place] == "(") - (line[place] == ")")
        if line[place] in '"#':
            break
        if depth == 0:
            return place + 1
    raise Fault("a parenthesis is not closed")


def fill_in(word, variables):
    """A word with its $VAR and $(EXPR) worked out; a quoted one stays as it is."""
    if "$" not in word or word[0] == '"':
        return word
    parts, at = [], 0
    while (dollar := word.find("$", at)) >= 0:
        parts.append(word[at:dollar])
        at = dollar + 1
        if word[at : at + 1] == "(":
            end = closing(word, at)
            parts.append(str(evaluate(word[at:end], variables)))
        else:
            named = VARIABLE.match(word, at)
            if not named:
                raise Fault("$ begins a variable or $(..); in a quoted name it is a byte")
            end = named.end()
            parts.append(str(evaluate(named.group(), variables)))
        at = end
    return "".join(parts) + word[at:]


def evaluate(expression, variables):
    """The whole number that an expression stands for."""
    tokens, at = [], 0
    while at < len(expression):
        found = TOKEN.match(expression, at)
        if not found:
            raise Fault(f"can't work out {shown(expression)}")
        tokens.append(found.group(1))
        at = found.end()
    reader = Expression(tokens, variables)
    value = reader.sum(0)
    if reader.left:
        raise Fault(f"can't work out {shown(expression)}")
    return value


class Expression:
    """Reads tokens from the left; a sum of products of signed values."""

    def __init__(self, tokens, variables):
        self.left, self.variables = tokens[::-1], variables

    def sum(self, depth):
        value = self.product(depth)
        while self.left and self.left[-1] in "+-":
            sign = 1 if self.left.pop() == "+" else -1
            value += sign * self.product(depth)
        return value

    def product(self, depth):
        value = self.signed(depth)
        while self.left and self.left[-1] in ("*", "//", "%"):
            operation, other = self.left.pop(), self.signed(depth)
            if operation != "*" and other == 0:
                raise Fault("a division by zero")
            if operation == "*":
                value *= other
            else:
                value = value // other if operation == "//" else value % other
            if abs(value) > LARGEST:
                raise Fault("a number beyond 64 bits")
        return value

    def signed(self, depth):
        if depth > DEEPEST:
            raise Fault("an expression nested too deep")
        token = self.left.pop() if self.left else ""
        if token in ("-", "+"):
            value = self.signed(depth + 1)
            return -value if token == "-" else value
        if token == "(":
            value = self.sum(depth + 1)
            if not self.left or self.left.pop() != ")":
                raise Fault("a parenthesis is not closed")
            return value
        if token in self.variables:
            return self.variables[token]
        if token.isalpha():
            raise Fault(f"there is no variable {token}")
        return number(token)


def number(word, wanted="a whole number is wanted"):
    """The number that a word is; else what is wanted instead."""
    if not word:
        raise Fault(f"a number is missing: {wanted}")
    if not NUMBER.match(word):
        more = ", without point or comma" if POINTED.match(word) else ""
        raise Fault(f"{shown(word)} is no whole number: {wanted}{more}")
    digits = word.replace("_", "")
    if len(digits) > 40:
        raise Fault(f"{shown(word, 40)} does not fit any field")
    return int(digits, 16) if "x" in digits.lower() else int(digits)


def name_bytes(word):
    """The 16 bytes of a name, bare or in quotes."""
    if word.startswith('"'):
        text = word[1:-1]
        if "\\" in ESCAPE.sub("", text):
            raise Fault(f'unknown escape in {shown(word)}: \\\\, \\" and \\xNN are known')
        word = ESCAPE.sub(lambda m: m.group(1) or chr(int(m.group(2), 16)), text)
    elif not BARE.match(word):
        raise Fault(f"name {shown(word)} must stand in double quotes")
    if len(word) > 16:
        raise Fault(f"name {shown(word)} has {len(word)} bytes, more than 16")
    return word.encode("latin-1").ljust(16, b"\0")


def name_word(name):
    """A name without its filling as the text has it, bare or in quotes."""
    name = name.rstrip(b"\0").decode("latin-1")
    if BARE.match(name):
        return name
    quoted = (
        "\\" + char if char in '"\\' else char if " " <= char < "\x7f" else f"\\x{ord(char):02x}"
        for char in name
    )
    return '"' + "".join(quoted) + '"'


def hex_bytes(words):
    try:
        return bytes.fromhex("".join(words))
    except ValueError:
        raise Fault("bytes are pairs of hexadecimal digits") from None
