"""Why the import refused a supplier's list: the first fault of its text, in words, with its place.

The proved program decides. What it took is never read here, and what it refused is only explained.
"""
import collections
import re

LINE_FEED = 10
MOST_BYTES = 65536  # more is refused unread
NUMBERS = {2: "the number of components", 12: "a field, a row or the whole of another form", 13: "more than 15 digits"}

# Where a fault is (a byte's offset), what is found there, what was expected, and the number that it is refused with.
Fault = collections.namedtuple("Fault", "at found expected number", defaults=[12])

# What stands in place of a digit: a pattern of the bytes from there on, and what is found and expected.
BYTES = [
    (rb"\xef\xbb\xbf", "a byte order mark (EF BB BF)", "a file saved without one"),
    (rb"\xff\xfe|\xfe\xff", "a byte order mark of UTF-16", "one byte for each character, as ASCII or UTF-8"),
    (rb"\r\n", "a carriage return before the line feed (CR LF)", "the line feed alone, as lines end in Unix"),
    (rb"\r", "a carriage return", "a comma or a line feed behind a field"),
    (rb" |\xc2?\xa0", "a blank", "none: a field is its digits alone"),
    (rb"\t", "a tab", "a comma between fields, and nothing beside their digits"),
    (rb"\+", "a plus sign", "the number without it"),
    (rb"[\"']", "a quotation mark", "the number without it"),
    (rb"\xe2\x88\x92|\xe2\x80[\x90-\x95]|\x96", "a printed minus or dash", "the minus of the keyboard (-)"),
]


def shown(text):
    """Bytes as a message shows them."""
    return '"' + "".join(chr(b) if 32 <= b < 127 else f"\\x{b:02x}" for b in text) + '"'


def place(text, at):
    """A byte's line and column, from 1 on, and its offset."""
    line, start = text.count(b"\n", 0, at) + 1, text.rfind(b"\n", 0, at) + 1
    return f"line {line}, column {at - start + 1} (byte {at})"


# ---- a field


def other_byte(text, at, field):
    """The fault of a byte that no field has."""
    for pattern, found, expected in BYTES:
        if re.compile(pattern).match(text, at):
            return Fault(at, found, expected)
    byte = text[at : at + 1]
    if byte == b";" and b"," in text and b"." not in text:
        return Fault(at, "a semicolon", "commas between fields and points in numbers: this looks like a list with "
                                        "semicolons and decimal commas, as a spreadsheet set to German writes it")
    if byte == b";":
        return Fault(at, "a semicolon", "a comma between fields")
    if byte in (b"e", b"E") and field[-1:].isdigit():
        return Fault(at, "an exponent", "the digits written out")
    if byte == b".":
        return Fault(at, "a second point in a field", "one at most, and nothing between thousands")
    if byte == b"-":
        return Fault(at, "a minus inside a field", "it first alone")
    return Fault(at, shown(byte), "a digit: a list has numbers alone, and no heading")


def field_fault(text, at, end):
    """The first fault of the field from at to end, if it has one."""
    form = re.compile(rb"(-?)([0-9]*)(\.?)([0-9]*)").match(text, at, end)
    minus, whole, point, behind = form.groups()
    if point and not whole:
        return Fault(form.start(3), "a point without a digit before it", "one, as in 0.5")
    if form.end() < end:
        return other_byte(text, form.end(), form[0])
    if not whole:
        return Fault(at, "a minus alone" if minus else "an empty field", "a number")
    if point and not behind:
        return Fault(form.start(3), "a point without a digit behind it", "one, as in 5.0, or no point")
    if len(whole) + len(behind) > 15:
        past = form.start(2) + 15 + (len(whole) <= 15)
        return Fault(past, f"digit 16 of {shown(form[0][:40])}", "at most 15 digits, leading zeros among them", 13)
    return None


# ---- the list


def cut(n, at, row, column):
    """The fault of a text that ends behind so many rows and so many fields of the next."""
    if at == 0:
        return Fault(at, "an empty file", f"{n} rows of {n} numbers")
    if column == n:
        return Fault(at, "the end of the file", "a line feed behind every row, the last too")
    fields = f" and {column} of {n} fields" if column else ""
    return Fault(at, f"the end of the file behind {row} of {n} rows{fields}", f"{n} rows of {n} numbers")


def ending(n, text, end, row, column):
    """The fault of what ends the last of so many fields of a row."""
    if end == len(text):
        return cut(n, end, row, column)
    if text[end] == LINE_FEED:
        return Fault(end, f"the end of row {row + 1} behind {column} of {n} fields", "a number for each component")
    line = text[text.rfind(b"\n", 0, end) + 1 :].partition(b"\n")[0]
    if end + 1 == len(text) or text[end + 1] in b"\r\n":
        return Fault(end + 1, f"nothing behind the last comma of row {row + 1}", "no comma behind the last field")
    meant = "; are these decimal commas?" if b"." not in text and line.count(b",") < 2 * n else ""
    return Fault(end + 1, f"field {n + 1} of row {row + 1}", f"{n}, one for each component{meant}")


def first_fault(n, text):
    """The first fault of a list of n components, in reading order, or None."""
    at = 0
    for k in range(n * n):
        row, column = divmod(k, n)
        if at == len(text):
            return cut(n, at, row, column)
        end = re.compile(rb"[^,\n]*").match(text, at).end()
        if column == 0 and text[at] == LINE_FEED:
            return Fault(at, "an empty line", f"row {row + 1}")
        own = field_fault(text, at, end)
        if own:
            return own
        if text[end : end + 1] != (b"\n" if column == n - 1 else b","):
            return ending(n, text, end, row, column + 1)
        at = end + 1
    if at < len(text):
        found = "an empty line" if text[at] == LINE_FEED else f"row {n + 1}"
        return Fault(at, f"{found} below the last row", f"{n} rows, one for each component")
    return None


def explained(n, text, number):
    """What is found, with its place, and what was expected, where a list is refused with a number."""
    if len(text) > MOST_BYTES:
        return f"{len(text)} bytes", f"a list of at most {18 * n * n}, for {n} components (refused with {number})"
    fault = first_fault(n, text)
    if not fault or fault.number != number:
        return f"a refusal with {number} ({NUMBERS.get(number, 'no number of an import')})", \
            "a list that is taken: why it isn't was not found"
    return f"{fault.found} at {place(text, fault.at)}", f"{fault.expected} (refused with {number})"
