"""A line of Penne tokens, read as penne's lexer reads it, and written as the input of the program penne-nodes.

Besides Penne's own spelling a token can be written by the name of its kind: `Identifier`, `Plus`. The two kinds with a
value type can have it after a colon, without spaces: `SuffixedInteger:i32`, `ValueTypeKeyword:bool`. An identifier
that is called as a kind is has a backslash before it: `\\Plus`. `#62` is a token of the kind 62, and `#52:15` has the
value type 15 too, whether or not there are such. `40×(` is 40 times `(`.
"""

import collections
import re
import struct

import penne_codes as codes

Token = collections.namedtuple("Token", "kind value_type text")

SPACE = re.compile(rb"(?:[ \t\r\n]|//[^\n]*)*")
WORD = re.compile(rb"[A-Za-z_][A-Za-z0-9_]*")
NUMBER = re.compile(rb"[0-9][A-Za-z0-9_]*")
# The parts of a number: the digits with their base, and what follows them.
DIGITS = re.compile(rb"(0x_*[0-9A-Fa-f][0-9A-Fa-f_]*|0b_*[01][01_]*|0|[1-9][0-9_]*)(.*)")
ESCAPE = rb"\\(?:[nrt\\'\"0]|x[0-9A-Fa-f]{2})"
UNICODE = rb"\\u\{([0-9A-Fa-f]{1,6})\}"
CHAR = re.compile(rb"'(?:" + ESCAPE + rb"|[^\x00-\x1f\x7f'\\])'")
STRING = re.compile(rb'"(?:' + ESCAPE + rb"|" + UNICODE + rb'|[^\x00-\x1f\x7f"\\])*"')
ESCAPED = re.compile(rb"\\([A-Za-z_][A-Za-z0-9_]*)")
BY_NUMBER = re.compile(rb"#(0|[1-9][0-9]{0,2})(?::(0|[1-9][0-9]{0,2}))?(?![A-Za-z0-9_])")
TIMES = re.compile("([1-9][0-9]{0,4})×".encode())
TYPE_AFTER_NAME = re.compile(rb":([A-Za-z][A-Za-z0-9]*)")
SYMBOL = re.compile(rb"[<>|!.=-][<>=:.]|[^A-Za-z0-9_ \t\r\n]")

NO_CHAR = "a character literal is one byte or escape between two quotes"
NO_STRING = "the string is not closed, or has a control character or an unknown escape"

# The most digits of a decimal number of 128 bits.
DECIMAL_DIGITS = 39

# The bytes of the three sizes with which an input begins, and of the three numbers of a declaration after them.
SIZES, DECLARED = 12, 12

# The kinds that have a value type.
TYPED = (codes.KIND["ValueTypeKeyword"], codes.KIND["SuffixedInteger"])


class Unreadable(Exception):
    """A word that is no token, with its place in the line."""

    def __init__(self, line, at, why):
        before = line[:at]
        number = before.count(b"\n") + 1
        column = len(before[before.rfind(b"\n") + 1 :].decode("utf-8", "replace")) + 1
        super().__init__(f"line {number}, character {column}: {why}")


def tokens(line, end=True):
    """The tokens of a line of bytes, with EndOfSource after them if asked for."""
    found = []
    at = SPACE.match(line).end()
    while at < len(line):
        times, at = _times(line, at)
        token, size = _token(line, at)
        found += times * [token]
        at = SPACE.match(line, at + size).end()
    if end:
        found.append(Token(codes.KIND["EndOfSource"], 0, "EndOfSource"))
    return found


def program_input(row, cursor, entry, declared=(0, 0, 0)):
    """What penne-nodes reads: three sizes, the kinds, the value types. For the entries that it does not have there are
    three numbers more after the sizes: where the declaration begins, its flags, and the kind of its declaring token."""
    kinds = bytes(token.kind for token in row)
    value_types = bytes(token.value_type for token in row)
    more = () if entry in codes.PROGRAM_ENTRIES else declared
    sizes = struct.pack(f"<{3 + len(more)}I", len(row), cursor, entry, *more)
    return sizes + kinds + value_types


def read_input(data):
    """The entry, the row, the cursor and the numbers of a declaration in such an input, or None for a bad file."""
    if len(data) < SIZES:
        return None
    count, cursor, entry = struct.unpack_from("<III", data)
    begin = SIZES if entry in codes.PROGRAM_ENTRIES else SIZES + DECLARED
    if entry >= len(codes.ENTRIES) or len(data) != begin + 2 * count:
        return None
    declared = (0, 0, 0) if begin == SIZES else struct.unpack_from("<III", data, SIZES)
    if declared[2] > 255:
        return None
    kinds, value_types = data[begin : begin + count], data[begin + count :]
    row = [Token(kind, value_type, "") for kind, value_type in zip(kinds, value_types)]
    return entry, row, cursor, declared


def _times(line, at):
    """How often the next token comes, and where it is."""
    match = TIMES.match(line, at)
    if not match:
        return 1, at
    if match.end() == len(line):
        raise Unreadable(line, at, f"no token follows `{match.group().decode()}`")
    return int(match.group(1)), match.end()


def _token(line, at):
    """The token at a place, and how many bytes it has."""
    for pattern, read in ((ESCAPED, _escaped), (BY_NUMBER, _by_number), (WORD, _word), (NUMBER, _number)):
        match = pattern.match(line, at)
        if match:
            return read(line, at, match.group())
    if line[at : at + 1] in (b"'", b'"'):
        return _quoted(line, at)
    return _symbol(line, at)


def _made(kind, value_type, text):
    return Token(kind, value_type, text.decode("utf-8", "replace")), len(text)


def _escaped(line, at, word):
    """An identifier after a backslash, whatever its name is otherwise."""
    return Token(codes.KIND["Identifier"], 0, word[1:].decode()), len(word)


def _by_number(line, at, word):
    """A token by the numbers of its kind and value type."""
    kind, value_type = (int(number or 0) for number in BY_NUMBER.match(line, at).groups())
    if max(kind, value_type) > 255:
        raise Unreadable(line, at, f"`{word.decode()}` has a number above 255")
    return _made(kind, value_type, word)


def _word(line, at, word):
    """A keyword, a value type, a token by its name, a builtin or an identifier."""
    text = word.decode()
    if text in codes.SPELLED:
        return _made(codes.SPELLED[text], 0, word)
    if text in ("true", "false"):
        return _made(codes.KIND["BoolLiteral"], 0, word)
    if text in codes.VALUE_TYPE_SPELLED:
        return _made(codes.KIND["ValueTypeKeyword"], codes.VALUE_TYPE_SPELLED[text], word)
    if text in codes.KIND:
        return _named(line, at, word)
    if line[at + len(word) : at + len(word) + 1] == b"!":
        return _made(codes.KIND["Builtin"], 0, word + b"!")
    return _made(codes.KIND["Identifier"], 0, word)


def _named(line, at, word):
    """A token by its name, with its value type if one follows."""
    kind = codes.KIND[word.decode()]
    match = TYPE_AFTER_NAME.match(line, at + len(word))
    if kind not in TYPED or not match:
        return _made(kind, 0, word)
    name = match.group(1).decode()
    value_type = codes.VALUE_TYPE_SPELLED.get(name, codes.VALUE_TYPE.get(name))
    if value_type is None:
        raise Unreadable(line, match.start(1), f"`{name}` is no value type")
    return _made(kind, value_type, word + match.group())


def _number(line, at, word):
    """An integer; its value is looked at only for its size."""
    text = word.decode()
    digits, suffix = DIGITS.fullmatch(word).groups()
    plain = digits.decode().replace("_", "")
    if _too_large(plain):
        raise Unreadable(line, at, f"`{text}` has more than 128 bits")
    if suffix:
        value_type = codes.SUFFIXES.get(suffix.decode())
        if value_type is None:
            raise Unreadable(line, at, f"`{text}` does not end in an integer type")
        return _made(codes.KIND["SuffixedInteger"], value_type, word)
    kind = "BitInteger" if plain[:2] in ("0x", "0b") else "NakedDecimal"
    return _made(codes.KIND[kind], 0, word)


def _too_large(plain):
    """Whether a number without underlines has more than 128 bits, or binary digits."""
    if plain.startswith("0b"):
        return len(plain) > len("0b") + 128
    if not plain.startswith("0x") and len(plain) > DECIMAL_DIGITS:
        return True
    return int(plain, 0) >= 1 << 128


def _quoted(line, at):
    """A character or string literal."""
    is_char = line[at : at + 1] == b"'"
    match = (CHAR if is_char else STRING).match(line, at)
    if not match:
        raise Unreadable(line, at, NO_CHAR if is_char else NO_STRING)
    for escape in re.finditer(UNICODE, match.group()):
        value = int(escape.group(1), 16)
        if value > 0x10FFFF or 0xD800 <= value <= 0xDFFF:
            raise Unreadable(line, at + escape.start(), "this is no Unicode character")
    return _made(codes.KIND["CharLiteral" if is_char else "StringLiteral"], 0, match.group())


def _symbol(line, at):
    """A token of one or two characters that are no letters."""
    symbol = SYMBOL.match(line, at).group()
    for text in (symbol, symbol[:1]):
        kind = codes.SPELLED.get(text.decode("latin-1"))
        if kind is not None:
            return _made(kind, 0, text)
    char = line[at:].decode("utf-8", "replace")[0]
    raise Unreadable(line, at, f"`{char}` is no token of Penne")
