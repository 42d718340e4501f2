#!/usr/bin/env python3
"""examples.py: write stdin and stdout beside this file: the examples, and what RFC 4180 says of them.

The reading here is the RFC's grammar as regular expressions: once a record's text cut at commas outside quotes, and once field by field
in place. Python's own csv module has to agree where the grammar reads a file.
"""
import csv
import io
import os
import re

TEXTDATA = rb"[\x20-\x21\x23-\x2b\x2d-\x7e]"
ESCAPED = re.compile(rb'"((?:' + TEXTDATA + rb'|,|\r|\n|"")*)"', re.S)
NON_ESCAPED = re.compile(TEXTDATA + rb"*", re.S)
# a field where it stands in a file, and what ends it
IN_PLACE = re.compile(rb"(" + ESCAPED.pattern + rb"|" + NON_ESCAPED.pattern + rb")(,|\r\n|\Z)", re.S)

# the examples printed in section 2, by its seven rules
RULES = [
    ("rule 1, records end in CR LF", b"aaa,bbb,ccc\r\nzzz,yyy,xxx\r\n"),
    ("rule 2, the last record may lack it", b"aaa,bbb,ccc\r\nzzz,yyy,xxx"),
    ("rule 3, a header line is a record", b"field_name,field_name,field_name\r\naaa,bbb,ccc\r\nzzz,yyy,xxx\r\n"),
    ("rule 4, commas between fields", b"aaa,bbb,ccc"),
    ("rule 5, fields in quotes", b'"aaa","bbb","ccc"\r\nzzz,yyy,xxx'),
    ("rule 6, a line break in quotes", b'"aaa","b\r\nbb","ccc"\r\nzzz,yyy,xxx'),
    ("rule 7, a quote in quotes is doubled", b'"aaa","b""bb","ccc"'),
]
SOUND = [
    ("an empty file is one empty field", b""),
    ("an empty field, and an empty one in quotes", b',""'),
    ("a comma at the end begins an empty field", b"a,b,"),
    ("spaces belong to a field", b" a , b "),
    ("a record of one empty field at the end", b"a,b\r\n\r\n"),
    ("a record of one empty field alone", b"\r\n"),
    ("comma, CR, LF and quote in quotes", b'"a,b","\r","\n",""""'),
    ("doubled quotes side by side", b'"""",""""""\r\n"a"""\r\n'),
    ("the ends of TEXTDATA's ranges", b' !#+-~,"!~"'),
    ("a backslash is text", b'a\\,"\\"'),
]
BROKEN = [
    ("a quote in plain text", b'a"b,c'),
    ("a space before an opening quote", b' "a",b'),
    ("a space behind a closing quote", b'"a" ,b'),
    ("text behind a closing quote", b'"a"b,c'),
    ("a quote not closed", b'"a,b\r\n'),
    ("a doubled quote, and none to close", b'"a""'),
    ("a quote alone", b'"'),
    ("a quote as the last byte", b'x,"'),
    ("LF without CR", b"a,b\nc,d\r\n"),
    ("CR without LF", b"a,b\rc,d\r\n"),
    ("CR at the end", b"a\r"),
    ("hex 80 in quotes", b'"\x80"'),
    ("hex 7F in quotes", b'"\x7f"'),
    ("hex 00", b"\x00"),
    ("a tab", b"\t"),
    ("a tab in quotes", b'"\t",b'),
    ("a byte order mark", b"\xef\xbb\xbfa,b"),
    ("broken in the second record", b'a,b\r\nc,d"\r\ne,f'),
]
SPLIT = [
    ("a record ends at CR LF, not at LF", b"a\nb\r\nc"),
    ("a record ends at CR LF, not at CR", b"a\r\r\nb"),
    ("no record ends inside quotes", b'"a\r\nb"\r\nc\r\n'),
    ("no record ends behind an open quote", b'a\r\n"b\r\nc'),
]
# values to write behind two bytes of an output of 24
VALUES = [
    ("nothing", b""),
    ("text", b"aaa"),
    ("spaces", b" b b "),
    ("a quote in text", b'b"bb'),
    ("a comma in text", b"b,b"),
    ("CR LF in text", b"b\r\nbb"),
    ("CR", b"\r"),
    ("LF", b"\n"),
    ("a comma", b","),
    ("a quote", b'"'),
    ("two quotes", b'""'),
    ("the ends of TEXTDATA's ranges", b"!#+-~"),
    ("22 bytes of text, which just fit", b"a" * 22),
    ("23 bytes of text", b"a" * 23),
    ("20 commas, which just fit", b"," * 20),
    ("21 commas", b"," * 21),
    ("10 quotes, which just fit", b'"' * 10),
    ("11 quotes", b'"' * 11),
    ("a tab in text", b"a\tb"),
    ("hex 00", b"\x00"),
    ("hex 7F behind a quote", b'"\x7f'),
    ("40 bytes hex 80, refused before too long", b"\x80" * 40),
]
ESCAPES = {0x0D: b"\\r", 0x0A: b"\\n", 0x5C: b"\\\\"}


def shown(text):
    """bytes in brackets, on one line"""
    plain = (ESCAPES.get(b, bytes([b]) if 0x20 <= b <= 0x7E else b"\\x%02x" % b) for b in text)
    return b"[" + b"".join(plain) + b"]"


def outside(text, at):
    """whether a place is behind an even number of quotes"""
    return text[:at].count(b'"') % 2 == 0


def cut(text, mark):
    """the parts of a text between the marks that stand outside quotes"""
    parts, start = [], 0
    for m in re.finditer(re.escape(mark), text):
        if outside(text, m.start()):
            parts.append(text[start : m.start()])
            start = m.end()
    return parts + [text[start:]]


def records(file):
    found = cut(file, b"\r\n")
    return found[:-1] if len(found) > 1 and found[-1] == b"" else found


def value(raw):
    """the value of a raw field, or None where it is no field of the grammar"""
    m = ESCAPED.fullmatch(raw)
    if m:
        return m.group(1).replace(b'""', b'"')
    return raw if NON_ESCAPED.fullmatch(raw) else None


def valued(raw):
    v = value(raw)
    return b"broken" if v is None else shown(v)


def in_place(file):
    """the raw fields from the front, each with what ends it, up to the first that is broken"""
    at, found = 0, []
    while True:
        m = IN_PLACE.match(file, at)
        if not m:
            return found, b" broken"
        found.append((m.group(1), {b",": b" comma", b"\r\n": b" record end", b"": b" end of file"}[m.group(3)]))
        at = m.end()
        if m.group(3) != b"," and at == len(file):
            return found, b""


def read(file):
    out, raws, values = b"file " + shown(file) + b"\n", [], []
    for record in records(file):
        fields = cut(record, b",")
        raws += fields
        values.append([value(f) for f in fields])
        out += b"record " + b" ".join(valued(f) for f in fields) + b"\n"
    found, last = in_place(file)
    sound = [raw for raw in raws if value(raw) is not None]
    assert [raw for raw, _ in found] == (raws if len(sound) == len(raws) else raws[: len(found)]), file
    assert (last == b"") == (len(sound) == len(raws)), file
    if last == b"":
        agrees(file, values)
    return out + b"fields" + b"".join(b" " + shown(raw) + end for raw, end in found) + last + b"\n"


def agrees(file, values):
    """Python reads an empty record as no field, and all else as the grammar does"""
    theirs = list(csv.reader(io.StringIO(file.decode("latin-1"), newline=""), strict=True))
    ours = [[v.decode("latin-1") for v in vs] for vs in values]
    assert [vs or [""] for vs in theirs] == ours or (file == b"" and theirs == []), (file, theirs, ours)


def written(v):
    """the output, and the value read back from it"""
    if any(value(b'"' + bytes([b]) + b'"') is None for b in v if b != 0x22):
        return b"." * 24, b"nothing: refused"
    field = v if NON_ESCAPED.fullmatch(v) else b'"' + v.replace(b'"', b'""') + b'"'
    if len(field) > 22:
        return b"." * 24, b"nothing: too long"
    return b".." + field + b"." * (22 - len(field)), valued(field) + (b", with a byte less too long" if v else b"")


def write(v):
    output, back = written(v)
    return b"value " + shown(v) + b"\noutput " + shown(output) + b"\nread back " + back + b"\n"


def main():
    groups = [("RFC 4180, section 2, ", RULES), ("sound: ", SOUND), ("broken: ", BROKEN), ("records: ", SPLIT)]
    examples = [(b"R", (group + title).encode(), x, read(x)) for group, part in groups for title, x in part]
    examples += [(b"W", ("written: " + title).encode(), x, write(x)) for title, x in VALUES]
    here = os.path.dirname(os.path.abspath(__file__))
    with open(os.path.join(here, "stdin"), "wb") as f:
        f.write(b"".join(b"%b%d %d:%b%b" % (letter, len(title), len(x), title, x) for letter, title, x, _ in examples))
    with open(os.path.join(here, "stdout"), "wb") as f:
        f.write(b"".join(title + b"\n" + out for _, title, _, out in examples))


if __name__ == "__main__":
    main()
