#!/usr/bin/env python3
"""files.py: write stdin and stdout beside this file: plan files, and what the call with a file has to answer, print and leave.

Reading, refusing and printing are written here from documents 01 and 02, apart from the proved code; the search and the fields of a record come
from the makers of the other two test programs. A refusal's number and record are written by hand beside each file as well.
"""
import os
import re
import sys

HERE = os.path.dirname(os.path.abspath(__file__))
sys.path += [os.path.join(HERE, "..", "allocation_test"), os.path.join(HERE, "..", "csv_test")]
sys.dont_write_bytecode = True
import examples  # noqa: E402
import plans  # noqa: E402

MOST = 10**9
TABLE, SPARE = plans.ENGINES * plans.DELIVERIES, plans.ENGINES
# no print is longer: a line, and one of 88 bytes for each engine and delivery
PRINT = 27 + (plans.ENGINES + plans.DELIVERIES) * 88


class Refused(Exception):
    pass


def number(text, low, high):
    """a number of a file, or None where it breaks its form or range"""
    value = int(text) if re.fullmatch(rb"0|[1-9][0-9]{0,9}", text) else -1
    return value if low <= value <= high else None


def item(fields, items, most, ranges, record):
    """adds an engine or a delivery"""
    if len(items) == most:
        raise Refused(7, record)
    name = fields[1]
    if not 1 <= len(name) <= 16 or not all(0x20 <= b <= 0x7E for b in name) or name in items:
        raise Refused(5, record)
    numbers = [number(text, *ends) for text, ends in zip(fields[2:], ranges)]
    if None in numbers:
        raise Refused(6, record)
    items[name] = numbers


def span(fields, engines, spans, record):
    """adds a quiet span as three numbers, the engine counted from 1; a name against the name rule is no engine's"""
    if fields[1] not in engines:
        raise Refused(10, record)
    numbers = [number(text, 0, plans.WEEK) for text in fields[2:]]
    if None in numbers:
        raise Refused(6, record)
    added = (1 + list(engines).index(fields[1]), *numbers)
    if plans.span_fault(added, spans):
        raise Refused(11, record)
    spans.append(added)


def read(file):
    """the plan of a file: mode, minutes, allowance, engines and deliveries by name, quiet spans"""
    if not 1 <= len(file) <= 32768:
        raise Refused(1, 0)
    head, engines, deliveries, spans = None, {}, {}, []
    for record, text in enumerate(examples.records(file), 1):
        fields = [examples.value(raw) for raw in examples.cut(text, b",")]
        if None in fields:
            raise Refused(2, record)
        if len(fields) != 4:
            raise Refused(3, record)
        if fields[0] not in ((b"plan",) if record == 1 else (b"engine", b"delivery", b"quiet")):
            raise Refused(4, record)
        if record == 1:
            head = [{b"fixed": 0, b"shortest": 1}.get(fields[1]), number(fields[2], 1, 10080), number(fields[3], 0, MOST)]
            if None in head:
                raise Refused(6, record)
        elif fields[0] == b"engine":
            item(fields, engines, plans.ENGINES, [(0, 5_000_000), (0, MOST)], record)
        elif fields[0] == b"quiet":
            span(fields, engines, spans, record)
        else:
            item(fields, deliveries, plans.DELIVERIES, [(1, MOST), (1, 12)], record)
    if not engines:
        raise Refused(8, 0)
    return head, engines, deliveries, spans


def quoted(name):
    return b'"' + name.replace(b'"', b'""') + b'"' if b'"' in name or b"," in name else name


def printed(word, minutes, tries, engines, deliveries, table):
    lines = [
        b"piece,%b,%b,%d" % (quoted(d), quoted(e), table[p * len(engines) + i])
        for p, d in enumerate(deliveries) for i, e in enumerate(engines) if table and table[p * len(engines) + i]
    ]
    return b"".join(line + b"\r\n" for line in [b"%b,%d,%d,%d" % (word.encode(), minutes, tries, len(lines))] + lines)


def call(file, table, spare, output):
    """the word, its two numbers, the print, and what is written to the table and the spare list"""
    head, engines, deliveries, spans = read(file)
    if table != TABLE or spare != SPARE:
        raise Refused(9, 0)
    lists = [[numbers[k] for numbers in items.values()] for items in (engines, deliveries) for k in (0, 1)]
    word, minutes, tries, cells, left = plans.answer(*head, *lists, plans.flat(spans), len(engines) * len(deliveries), len(engines))
    text = printed(word, minutes, tries, engines, deliveries, cells)
    if len(text) > output:
        raise Refused(9, 0)
    return word, minutes, tries, text, cells or [], left or []


CASES = []


def case(title, file, told, table=TABLE, spare=SPARE, output=PRINT, size=None, pad=b"."):
    """a case; told is what document 01 says: number and record of a refusal, or the word and its numbers"""
    CASES.append((title, file, told, table, spare, output, len(file) if size is None else size, pad))


def lines(*records):
    return b"".join((r if isinstance(r, bytes) else r.encode()) + b"\r\n" for r in records)


def numbered(kind, first, last, rest):
    return [f"{kind},N{n},{rest}" for n in range(first, last + 1)]


def plan_file(capacities, deliveries, allowance, mode="fixed", minutes=60):
    return lines(
        f"plan,{mode},{minutes},{allowance}",
        *(f"engine,E{i},{c},{MOST}" for i, c in enumerate(capacities, 1)),
        *(f"delivery,D{p},{e},{n}" for p, (e, n) in enumerate(deliveries, 1)),
    )


PLAN, ENGINE = "plan,fixed,60,9", "engine,E1,5,5"
EXAMPLE = plan_file([3000, 5000], [(5000, 2), (3000, 2)], 100)
PRINTED = lines("found,60,2,3", "piece,D1,E1,3000", "piece,D1,E2,2000", "piece,D2,E2,3000")
ENGINES12, ENGINES13 = numbered("engine", 1, 12, "5,5"), numbered("engine", 1, 13, "5,5")
DELIVERIES37, DELIVERIES38 = numbered("delivery", 1, 37, "1,1"), numbered("delivery", 1, 38, "1,1")
NAME17 = "ABCDEFGHIJKLMNOPQ"

# document 01's table "Turned down", each row with its own example
ROWS = [
    ("a file of 0 bytes", b"", (1, 0)),
    ("`plan,fixed,60,9` ended by LF only", b"plan,fixed,60,9\n", (2, 1)),
    ("`plan,fixed,60`", lines("plan,fixed,60"), (3, 1)),
    ("`engine,E1,5,5` as record 1", lines(ENGINE), (4, 1)),
    ("second `engine,E1,5,5`", lines(PLAN, ENGINE, ENGINE), (5, 3)),
    ("`plan,fixed,060,9`", lines("plan,fixed,060,9"), (6, 1)),
    ("13 engine records", lines(PLAN, *ENGINES13), (7, 14)),
    ("`plan,fixed,60,9` alone", lines(PLAN), (8, 0)),
]
# the rows' other ways
TURNED_DOWN = [
    ("LF only, then a record", b"plan,fixed,60,9\nengine,E1,5,5\r\n", (2, 1)),
    ("CR only", b"plan,fixed,60,9\r", (2, 1)),
    ("two CR before LF", b"plan,fixed,60,9\r\r\nengine,E1,5,5\r\n", (2, 1)),
    ("quote in plain text", lines('plan,fi"xed,60,9'), (2, 1)),
    ("space before an opening quote", lines('plan, "fixed",60,9'), (2, 1)),
    ("space behind a closing quote", lines('plan,"fixed" ,60,9'), (2, 1)),
    ("text behind a closing quote", lines('plan,"fi"xed,60,9'), (2, 1)),
    ("unclosed quote, to the end of the file", lines(PLAN, 'engine,"E1,5,5', "engine,E2,5,5"), (2, 2)),
    ("unclosed quote as the last byte", b'plan,fixed,60,"', (2, 1)),
    ("hex 01 in quotes", lines(PLAN, b'engine,"E\x01",5,5'), (2, 2)),
    ("hex 7F", lines(PLAN, b"engine,E\x7f,5,5"), (2, 2)),
    ("hex 80 in quotes", lines(PLAN, b'engine,"E\x80",5,5'), (2, 2)),
    ("a tab", lines(PLAN, b"engine,E\t1,5,5"), (2, 2)),
    ("a byte order mark", lines(b"\xef\xbb\xbf" + PLAN.encode(), ENGINE), (2, 1)),
    ("five fields, the last one empty", lines(PLAN + ","), (3, 1)),
    ("an empty record", lines(""), (3, 1)),
    ("an empty record at the end", lines(PLAN, ENGINE, ""), (3, 3)),
    ("three fields in record 2", lines(PLAN, "engine,E1,5"), (3, 2)),
    ("commas in quotes do not part", lines(PLAN, '"engine,E1,5,5"'), (3, 2)),
    ("a header line of four fields", lines("kind,name,a,b", PLAN, ENGINE), (4, 1)),
    ("an unknown record", lines(PLAN, "pump,E1,5,5"), (4, 2)),
    ("a later plan", lines(PLAN, ENGINE, PLAN), (4, 3)),
    ("a capital", lines(PLAN, "Engine,E1,5,5"), (4, 2)),
    ("an empty first field", lines(PLAN, ",E1,5,5"), (4, 2)),
    ("a space before the first field", lines(PLAN, " engine,E1,5,5"), (4, 2)),
    ("quotes in the first field", lines(PLAN, '"""engine""",E1,5,5'), (4, 2)),
    ("second E1 in quotes, equal by value", lines(PLAN, ENGINE, 'engine,"E1",5,5'), (5, 3)),
    ("second quoted name, equal by value", lines(PLAN, 'engine,"a""b",5,5', 'engine,"a""b",5,5'), (5, 3)),
    ("second delivery D", lines(PLAN, ENGINE, "delivery,D,1,1", "delivery,D,1,1"), (5, 4)),
    ("a third engine by the second one's name", lines(PLAN, ENGINE, "engine,E2,5,5", "engine,E2,5,5"), (5, 4)),
    ("a third delivery by the second one's name", lines(PLAN, ENGINE, "delivery,C,1,1", "delivery,D,1,1", "delivery,D,1,1"), (5, 5)),
    ("no name", lines(PLAN, "engine,,5,5"), (5, 2)),
    ("no name in quotes", lines(PLAN, 'engine,"",5,5'), (5, 2)),
    ("a name of 17 bytes", lines(PLAN, f"engine,{NAME17},5,5"), (5, 2)),
    ("a delivery's name of 17 bytes", lines(PLAN, ENGINE, f"delivery,{NAME17},5,5"), (5, 3)),
    ("a name of 17 quotes", lines(PLAN, 'engine,"' + '"' * 34 + '",5,5'), (5, 2)),
    ("CR LF in a name", lines(PLAN, 'engine,"E\r\n1",5,5'), (5, 2)),
    ("LF in a name", lines(PLAN, 'engine,"E\n",5,5'), (5, 2)),
    ("unknown mode", lines("plan,fastest,60,9"), (6, 1)),
    ("no mode", lines("plan,,60,9"), (6, 1)),
    ("mode with a capital", lines("plan,Fixed,60,9"), (6, 1)),
    ("38 delivery records", lines(PLAN, *DELIVERIES38, ENGINE), (7, 39)),
    ("38 delivery records behind an engine", lines(PLAN, ENGINE, *DELIVERIES38), (7, 40)),
    ("64 delivery records", lines(PLAN, *numbered("delivery", 1, 64, "1,1"), ENGINE), (7, 39)),
    ("65 delivery records", lines(PLAN, *numbered("delivery", 1, 65, "1,1"), ENGINE), (7, 39)),
    ("a delivery, no engine", lines(PLAN, "delivery,D1,5,1"), (8, 0)),
    ("`plan,fixed,60,9` alone, without CR LF", PLAN.encode(), (8, 0)),
]
# 6: what is no number, and what is out of its range
NUMBERS = [
    ("MINUTES", "plan,fixed,%s,9", 1, ["", "0", "00", "10081", "-1", "+1", " 1", "1 ", "1.0", "1e3", '"1""0"', '"1\r\n"', "18446744073709551617"]),
    ("TRIES", "plan,fixed,60,%s", 1, ["", "00", "09", "1000000001", "18446744073709551616", "x"]),
    ("WATTS", "engine,E1,%s,5", 2, ["", "00", "05", "5000001", "4294967296", "-5"]),
    ("FUEL", "engine,E1,5,%s", 2, ["", "00", "05", "1000000001", "4294967296", '"5,"']),
    ("ENERGY", "delivery,D1,%s,1", 2, ["", "0", "01", "1000000001", "18446744073709551617"]),
    ("LIMIT", "delivery,D1,5,%s", 2, ["", "0", "01", "13", "268435457"]),
]
# two faults at once: in one record 2, 3, 4, 7, then the fields from the left; of two records the first; 8 behind the last one
ORDER = [
    ("2 before 3", lines('plan,fi"xed,60'), (2, 1)),
    ("2 before 3, in a fifth field", lines(PLAN + ',"x"y'), (2, 1)),
    ("2 before 4", lines('pump,"E1"x,5,5'), (2, 1)),
    ("2 before 5 and 6", lines(PLAN, 'engine,,x,"5'), (2, 2)),
    ("2 before 7", lines(PLAN, *ENGINES12, 'engine,N13,5,"5"x'), (2, 14)),
    ("3 before 4", lines("pump,E1,5"), (3, 1)),
    ("3 before 5 and 6", lines(PLAN, "engine,,x,5,5"), (3, 2)),
    ("3 before 7", lines(PLAN, *ENGINES12, "engine,N13,5"), (3, 14)),
    ("4 before 5 and 6", lines("engine,,x,x"), (4, 1)),
    ("4 before 6, a plan later", lines(PLAN, ENGINE, "plan,fixed,0,9"), (4, 3)),
    ("4 where an engine would be 7", lines(PLAN, *ENGINES12, "pump,N1,x,5"), (4, 14)),
    ("7 before 5", lines(PLAN, *ENGINES12, "engine,N1,5,5"), (7, 14)),
    ("7 before 6", lines(PLAN, *ENGINES12, "engine,N13,x,5"), (7, 14)),
    ("7 before 5 and 6, deliveries", lines(PLAN, *DELIVERIES37, "delivery,N1,0,0"), (7, 39)),
    ("5 before 6, from the left", lines(PLAN, "engine,,x,5"), (5, 2)),
    ("5 before 6, from the left, a delivery", lines(PLAN, ENGINE, "delivery,,5,13"), (5, 3)),
    ("first record, 6 before a later 2", lines(PLAN, "engine,E1,x,5", 'engine,"E1,5,5'), (6, 2)),
    ("first record, 5 before a later 3", lines(PLAN, ENGINE, ENGINE, "engine,E2"), (5, 3)),
    ("first record, 6 before a later 4", lines("plan,fixed,0,9", "pump,E1,5,5"), (6, 1)),
    ("first record, 6 before a later 7", lines(PLAN, "engine,E0,5,x", *ENGINES13), (6, 2)),
    ("first record, 4 before a later 2", lines("pump,E1,5,5", 'engine,"'), (4, 1)),
    ("any record before 8", lines(PLAN, "delivery,D1,5,13"), (6, 2)),
]
# quotes in plan files that are accepted, and names
QUOTED = [
    ("every field in quotes", lines('"plan","fixed","60","0"', '"engine","E1","5","5"', '"delivery","D1","5","2"'), ("found", 60, 0)),
    ("names with commas and quotes are printed in quotes", lines("plan,fixed,60,0", 'engine,"a, ""b""",5,5', 'delivery,"""",5,2'), ("found", 60, 0)),
    ("other names are printed without", lines("plan,fixed,60,0", 'engine,"North 1",5,5', 'delivery,"D",3,2', 'delivery,",",2,2'), ("found", 60, 0)),
    ("names of spaces", lines("plan,fixed,60,0", "engine, ,5,5", "engine,  ,5,5", "delivery, ,5,2"), ("found", 60, 0)),
    ("one name for an engine and a delivery", lines("plan,fixed,60,0", "engine,X,5,5", "delivery,X,5,2"), ("found", 60, 0)),
    ("names that differ in case", lines("plan,fixed,60,0", "engine,e1,5,5", ENGINE), ("found", 60, 0)),
    ("names of 16 bytes", lines("plan,fixed,60,0", f"engine,{NAME17[:16]},5,5", 'delivery,"' + '"' * 32 + '",5,2'), ("found", 60, 0)),
]


# K1: an engine of 60 watts gives 1 Wh for each minute in which it runs
HOURS = [PLAN, "engine,E1,60,1000"]
TWO = [*HOURS, "engine,E2,60,1000"]
SHORTEST = ["plan,shortest,120,9", "engine,E1,60,1000"]
EIGHT = [f"quiet,E1,{10 * k},{10 * k + 5}" for k in range(8)]
QUIET_NAMES = ['"a, ""b"""', '"' + '"' * 32 + '"', NAME17[:16], " ", '","', '"E1"', "quiet"]
# quiet hours in files that are accepted, with document 02's answer
QUIET = [
    ("a span at 0", lines(*HOURS, "quiet,E1,0,10", "delivery,D,50,1"), ("found", 60, 1)),
    ("a span at 0, 1 Wh too much", lines(*HOURS, "quiet,E1,0,10", "delivery,D,51,1"), ("none", 60, 0)),
    ("a span up to T", lines(*HOURS, "quiet,E1,50,60", "delivery,D,51,1"), ("none", 60, 0)),
    ("a span from T on", lines(*HOURS, "quiet,E1,60,70", "delivery,D,60,1"), ("found", 60, 1)),
    ("a span across T", lines(*HOURS, "quiet,E1,55,65", "delivery,D,55,1"), ("found", 60, 1)),
    ("a span across T, 1 Wh too much", lines(*HOURS, "quiet,E1,55,65", "delivery,D,56,1"), ("none", 60, 0)),
    ("a span of the week's last minute", lines(*HOURS, "quiet,E1,10079,10080", "delivery,D,60,1"), ("found", 60, 1)),
    ("two spans that touch", lines(*HOURS, "quiet,E1,10,20", "quiet,E1,20,30", "delivery,D,40,1"), ("found", 60, 1)),
    ("two spans that touch, the later first", lines(*HOURS, "quiet,E1,20,30", "quiet,E1,10,20", "delivery,D,41,1"), ("none", 60, 0)),
    ("eight spans, two beyond MINUTES", lines(*HOURS, *EIGHT, "delivery,D,30,1"), ("found", 60, 1)),
    ("eight spans, 1 Wh too much", lines(*HOURS, *EIGHT, "delivery,D,31,1"), ("none", 60, 0)),
    ("spans behind the deliveries", lines(*HOURS, "delivery,D,50,1", "quiet,E1,5,10", "quiet,E1,0,5"), ("found", 60, 1)),
    ("the last record a span, without CR LF", lines(*HOURS, "delivery,D,50,1", "quiet,E1,0,10")[:-2], ("found", 60, 1)),
    ("spans before another engine", lines(*HOURS, "quiet,E1,0,60", "engine,E2,60,1000", "quiet,E2,0,10", "delivery,D,50,1"), ("found", 60, 1)),
    ("a span of another engine between two", lines(*TWO, "quiet,E1,0,9", "quiet,E2,5,20", "quiet,E1,9,20", "delivery,D,45,1"), ("found", 60, 1)),
    ("an engine quiet throughout is closed", lines(*TWO, "quiet,E1,0,60", "delivery,D,60,2"), ("found", 60, 0)),
    ("every engine quiet throughout", lines(*TWO, "quiet,E1,0,60", "quiet,E2,0,60", "delivery,D,1,1"), ("none", 60, 0)),
    ("every engine quiet throughout, no deliveries", lines(*TWO, "quiet,E1,0,60", "quiet,E2,0,60"), ("found", 60, 0)),
    ("every field in quotes", lines(*HOURS, '"quiet","E1","0","10"', "delivery,D,50,1"), ("found", 60, 1)),
    ("an engine that has a delivery's name", lines(PLAN, "delivery,X,60,1", "engine,Y,60,60", "engine,X,60,60", "quiet,X,0,10"), ("found", 60, 1)),
    ("names that differ in case", lines(PLAN, "engine,e1,60,60", "engine,E1,60,60", "quiet,E1,0,60", "delivery,D,60,2"), ("found", 60, 0)),
    ("12 engines, 37 deliveries, 96 spans", lines(
        "plan,fixed,60,37", *(f"engine,N{n},60,60" for n in range(1, 13)), *DELIVERIES37,
        *(f"quiet,N{n},{7 * k},{7 * k + 7}" for k in range(8) for n in range(1, 13))), ("found", 60, 37)),
    ("shortest, as printed in 75 minutes", lines(b"plan,shortest,120,100", *EXAMPLE.split(b"\r\n")[1:-1], "quiet,E2,10,34"), ("found", 75, 2)),
    ("shortest, the least minute just behind a span", lines(*SHORTEST, "quiet,E1,10,40", "delivery,D,11,1"), ("found", 41, 1)),
    ("shortest, the least minute just before a span", lines(*SHORTEST, "quiet,E1,10,40", "delivery,D,10,1"), ("found", 10, 1)),
    ("shortest, a span at 0", lines(*SHORTEST, "quiet,E1,0,119", "delivery,D,1,1"), ("found", 120, 1)),
    ("shortest, none for a span throughout", lines(*SHORTEST, "quiet,E1,0,120", "delivery,D,1,1"), ("none", 120, 0)),
    ("shortest, in one engine's span while another runs", lines(
        *SHORTEST, "engine,E2,60,1000", "quiet,E1,10,40", "delivery,D,25,1", "delivery,F,10,1"), ("found", 25, 2)),
    ("shortest, stopped at a shorter time", lines("plan,shortest,120,1", *EXAMPLE.split(b"\r\n")[1:-1], "quiet,E2,10,34"), ("stopped", 90, 1)),
]
# quiet records turned down, each by one fault
QUIET_REFUSALS = [
    ("a span of three fields", lines(*HOURS, "quiet,E1,5"), (3, 3)),
    ("a span of five fields", lines(*HOURS, "quiet,E1,0,5,"), (3, 3)),
    ("a span as record 1", lines("quiet,E1,0,5"), (4, 1)),
    ("quiet with a capital", lines(*HOURS, "Quiet,E1,0,5"), (4, 3)),
    ("quiet with a space behind it", lines(*HOURS, "quiet ,E1,0,5"), (4, 3)),
    ("no engine of the name", lines(*HOURS, "quiet,E2,0,5"), (10, 3)),
    ("the engine comes later", lines(PLAN, "quiet,E1,0,5", ENGINE), (10, 2)),
    ("the engine comes later, behind another one", lines(*HOURS, "quiet,E1,0,5", "quiet,E2,0,5", "engine,E2,5,5"), (10, 4)),
    ("a delivery's name", lines(*HOURS, "delivery,D,1,1", "quiet,D,0,5"), (10, 4)),
    ("another case", lines(*HOURS, "quiet,e1,0,5"), (10, 3)),
    ("the beginning of a name", lines(*HOURS, "quiet,E,0,5"), (10, 3)),
    ("a name and a space", lines(*HOURS, "quiet,E1 ,0,5"), (10, 3)),
    ("the number of an engine", lines(*HOURS, "quiet,1,0,5"), (10, 3)),
    ("no name", lines(*HOURS, "quiet,,0,5"), (10, 3)),
    ("no name in quotes", lines(*HOURS, 'quiet,"",0,5'), (10, 3)),
    ("a name of 17 bytes", lines(*HOURS, f"quiet,{NAME17},0,5"), (10, 3)),
    ("a name of 17 bytes, 16 of them an engine's", lines(PLAN, f"engine,{NAME17[:16]},5,5", f"quiet,{NAME17},0,5"), (10, 3)),
    ("CR LF in a name", lines(*HOURS, 'quiet,"E1\r\n",0,5'), (10, 3)),
    ("a quote too many in a name", lines(PLAN, 'engine,"a""",5,5', 'quiet,"a""""",0,5'), (10, 3)),
    ("FROM is TO", lines(*HOURS, "quiet,E1,5,5"), (11, 3)),
    ("FROM and TO 0", lines(*HOURS, "quiet,E1,0,0"), (11, 3)),
    ("FROM 10080", lines(*HOURS, "quiet,E1,10080,10080"), (11, 3)),
    ("FROM above TO", lines(*HOURS, "quiet,E1,10,9"), (11, 3)),
    ("the same span twice", lines(*HOURS, "quiet,E1,5,9", "quiet,E1,5,9"), (11, 4)),
    ("a minute in common, the later behind", lines(*HOURS, "quiet,E1,5,9", "quiet,E1,8,12"), (11, 4)),
    ("a minute in common, the later before", lines(*HOURS, "quiet,E1,5,9", "quiet,E1,2,6"), (11, 4)),
    ("a span in an earlier one", lines(*HOURS, "quiet,E1,5,9", "quiet,E1,6,8"), (11, 4)),
    ("an earlier span in it", lines(*HOURS, "quiet,E1,5,9", "quiet,E1,4,10"), (11, 4)),
    ("an overlap beyond MINUTES", lines(*HOURS, "quiet,E1,5000,9000", "delivery,D,1,1", "quiet,E1,8999,10080"), (11, 5)),
    ("an overlap by the name in quotes", lines(*HOURS, "quiet,E1,5,9", 'quiet,"E1",8,12'), (11, 4)),
    ("an overlap of the second engine", lines(*TWO, "quiet,E1,5,9", "quiet,E2,5,9", "quiet,E2,8,12"), (11, 6)),
    ("a ninth span", lines(*HOURS, *EIGHT, "quiet,E1,80,85"), (11, 11)),
    ("a ninth span, other records between", lines(*TWO, *EIGHT, "quiet,E2,0,5", "delivery,D,1,1", "quiet,E1,80,85"), (11, 14)),
    ("13 engine records, spans between", lines(PLAN, *(r for n in range(1, 14) for r in (f"engine,N{n},5,5", f"quiet,N{n},0,5"))), (7, 26)),
]
QUIET_NUMBERS = [
    ("FROM", "quiet,E1,%s,10080", ["", "00", "05", "-1", "x", " 5", "10081", "65536", "4294967296", "18446744073709551616"]),
    ("TO", "quiet,E1,0,%s", ["", "01", "10081", "+5", "5 ", "1e3", '"5""0"', "65541", "4294967301", "18446744073709551621"]),
]
# two faults at once: in a quiet record 2, 3, 4, 10, 6 for FROM and TO, 11; of two records the first
QUIET_ORDER = [
    ("2 before 10", lines(*HOURS, 'quiet,"X"y,0,5'), (2, 3)),
    ("2 before 6 and 11", lines(*HOURS, 'quiet,E1,x,"5'), (2, 3)),
    ("3 before 10 and 6", lines(*HOURS, "quiet,X,x"), (3, 3)),
    ("3 before 4, a span as record 1", lines("quiet,E1,0"), (3, 1)),
    ("4 before 10 and 6, a span as record 1", lines("quiet,X,x,5", PLAN, ENGINE), (4, 1)),
    ("10 before 6, FROM", lines(*HOURS, "quiet,X,y,5"), (10, 3)),
    ("10 before 6, TO", lines(*HOURS, "quiet,,0,10081"), (10, 3)),
    ("10 before 11, FROM is TO", lines(*HOURS, "quiet,X,5,5"), (10, 3)),
    ("10 before 11, twice the same span", lines(*HOURS, "quiet,X,0,5", "quiet,X,0,5"), (10, 3)),
    ("10 before 11, a ninth", lines(*HOURS, *EIGHT, "quiet,e1,80,85"), (10, 11)),
    ("6 before 11, FROM above a TO of other form", lines(*HOURS, "quiet,E1,9,05"), (6, 3)),
    ("6 before 11, FROM and TO 10081", lines(*HOURS, "quiet,E1,10081,10081"), (6, 3)),
    ("6 before 11, an overlap", lines(*HOURS, "quiet,E1,0,5", "quiet,E1,4,10081"), (6, 4)),
    ("6 before 11, a ninth", lines(*HOURS, *EIGHT, "quiet,E1,080,85"), (6, 11)),
    ("first record, 11 before a later 10", lines(*HOURS, "quiet,E1,5,5", "quiet,X,0,5"), (11, 3)),
    ("first record, 11 before a later 2", lines(*HOURS, "quiet,E1,5,5", 'quiet,"'), (11, 3)),
    ("first record, 10 before a later 11", lines(*HOURS, "quiet,X,0,5", "quiet,E1,5,5"), (10, 3)),
    ("first record, 10 before a later 6", lines(*HOURS, "quiet,X,0,5", "engine,E2,x,5"), (10, 3)),
    ("first record, 10 before a later 5", lines(*HOURS, "quiet,E2,0,5", ENGINE), (10, 3)),
    ("first record, 5 before a later 10", lines(*HOURS, ENGINE, "quiet,X,0,5"), (5, 3)),
    ("first record, 6 before a later 10 of that engine", lines(PLAN, "engine,E1,x,5", "quiet,E1,0,5"), (6, 2)),
    ("first record, 7 before the span of a 13th engine", lines(PLAN, *ENGINES13, "quiet,N13,0,5"), (7, 14)),
    ("10 before 8", lines(PLAN, "quiet,E1,0,5"), (10, 2)),
]


def quiet():
    """K1's sentences and document 02's open matters about them"""
    for title, file, told in QUIET:
        case("quiet, " + title, file, told)
    for name in QUIET_NAMES:
        file = lines(PLAN, "engine,E,60,1000", f"engine,{name},60,1000", f"quiet,{name},0,59", "delivery,D,61,2")
        case(f"quiet, the name {name}", file, ("found", 60, 2))
    case("quiet, E1 written in quotes by its engine", lines(PLAN, 'engine,"E1",60,1000', "quiet,E1,0,59", "delivery,D,2,1"), ("none", 60, 0))
    for title, file, told in QUIET_REFUSALS:
        case(f"turned down by {told[0]}, {title}", file, told)
    for name, record, texts in QUIET_NUMBERS:
        for text in texts:
            case(f"turned down by 6, {name} [{text}]", lines(*HOURS, record % text), (6, 3))
    for title, file, told in QUIET_ORDER:
        case("order, " + title, file, told)
    spans = lines(*HOURS, "quiet,E1,0,10", "delivery,D,50,1")
    case("turned down by 9, quiet hours and a table of 443", spans, (9, 0), 443)
    case("turned down by 9, quiet hours and an output a byte short", spans, (9, 0), output=28)
    case("an output that just fits, quiet hours", spans, ("found", 60, 1), output=29)
    case("order, 10 before 9", lines(*HOURS, "quiet,X,0,5"), (10, 3), 0, 0, 0)
    case("order, 11 before 9", lines(*HOURS, "quiet,E1,5,5"), (11, 3), 0, 0, 0)
    case("32,768 bytes, digits of TO to the end", lines(*HOURS) + b"quiet,E1,5,", (6, 3), size=32768, pad=b"1")


def refusals():
    for title, file, told in ROWS:
        case(f"turned down by {told[0]}, {title}", file, told)
    case("turned down by 9, 10 bytes lent for a plan's output", EXAMPLE, (9, 0), output=10)
    for title, file, told in TURNED_DOWN:
        case(f"turned down by {told[0]}, {title}", file, told)
    for name, record, place, texts in NUMBERS:
        for text in texts:
            shown = text.replace("\r\n", "\\r\\n")
            case(f"turned down by 6, {name} [{shown}]", lines(*[PLAN][: place - 1], record % text), (6, place))
    for title, file, told in ORDER:
        case("order, " + title, file, told)


def sizes():
    start = PLAN.encode() + b"\r\nengine,"
    case("32,768 bytes, too few fields", start, (3, 2), size=32768, pad=b"x")
    case("turned down by 1, 32,769 bytes", start, (1, 0), size=32769, pad=b"x")
    case("32,768 bytes, an unclosed quote", start + b'"', (2, 2), size=32768, pad=b"x")
    case("order, 1 before 2", start + b'"', (1, 0), size=32769, pad=b"x")
    case("32,768 bytes, a field for each byte", PLAN.encode(), (3, 1), size=32768, pad=b",")
    case("32,768 bytes, a number of 32,744 digits", start + b"E1,5,", (6, 2), size=32768, pad=b"1")
    case("turned down by 1, the example and more", EXAMPLE, (1, 0), size=32769, pad=b"x")


def lent():
    found, none = ("found", 60, 2), plan_file([1], [(2, 1)], 9)
    for table, spare in [(443, 12), (445, 12), (768, 12), (0, 12), (444, 11), (444, 13), (444, 0), (4, 2), (800, 20)]:
        case(f"turned down by 9, lent {table} and {spare} numbers", EXAMPLE, (9, 0), table, spare)
    case("turned down by 9, a table of 443 for an answer none", none, (9, 0), 443)
    case("turned down by 9, an output a byte short", EXAMPLE, (9, 0), output=67)
    case("an output that just fits", EXAMPLE, found, output=68)
    case("an output a byte longer", EXAMPLE, found, output=69)
    case("turned down by 9, no output", EXAMPLE, (9, 0), output=0)
    case("turned down by 9, an output a byte short of none", none, (9, 0), output=12)
    case("an output that just fits none", none, ("none", 60, 0), output=13)
    case("order, 8 before 9, a table of 443", lines(PLAN), (8, 0), 443)
    case("order, 8 before 9, no output", lines(PLAN), (8, 0), output=0)
    case("order, 6 before 9", lines("plan,fixed,0,9"), (6, 1), 0, 0, 0)
    case("order, 1 before 9", b"", (1, 0), 0, 0, 0)


def accepted():
    assert (TABLE, PRINT) == (444, 4339)
    assert call(EXAMPLE, TABLE, SPARE, PRINT)[3] == PRINTED
    for title, capacities, deliveries, allowance, (word, tries) in plans.PLANS_TO_TRY:
        case("plans to try, " + title, plan_file(capacities, deliveries, allowance), (word, 60, tries))
    case("plans to try, no deliveries as shortest", plan_file([3000], [], 100, "shortest"), ("found", 1, 0))
    case("plans to try, as printed as shortest, 120 minutes", plan_file([3000, 5000], [(5000, 2), (3000, 2)], 100, "shortest", 120), ("found", 60, 2))
    case("as printed, the last record without CR LF", EXAMPLE[:-2], ("found", 60, 2))
    records = EXAMPLE.split(b"\r\n")
    case("as printed, deliveries and engines mixed", lines(*(records[i] for i in (0, 3, 1, 4, 2))), ("found", 60, 2))
    case("stopped at a shorter time", plan_file([3000, 5000], [(5000, 2), (3000, 2)], 1, "shortest", 120), ("stopped", 60, 1))
    case("none as shortest", plan_file([3000, 5000], [(5000, 2), (3000, 2)], 100, "shortest", 59), ("none", 59, 0))
    case("the largest numbers", lines("plan,fixed,10080,1000000000", "engine,E,5000000,1000000000", "delivery,D,840000000,12"), ("found", 10080, 0))
    case("the smallest numbers", lines("plan,fixed,1,0", "engine,E,0,0", "delivery,D,1,1"), ("none", 1, 0))
    case("59 watts for 1 minute", lines("plan,fixed,1,9", "engine,E,59,1000", "delivery,D,1,1"), ("none", 1, 0))
    case("60 watts for 1 minute", lines("plan,fixed,1,9", "engine,E,60,1000", "delivery,D,1,1"), ("found", 1, 1))
    case("fuel below watts", lines(PLAN, "engine,E,1000,4", "delivery,D,5,1"), ("none", 60, 0))
    case("37 deliveries of limit 1, a try for each", lines("plan,fixed,60,37", "engine,E1,37,37", *DELIVERIES37), ("found", 60, 37))
    for title, file, told in QUOTED:
        case("quotes, " + title, file, told)
    full()


def full():
    """12 engines and 37 deliveries, 48 pieces: names of 14 quotes and two letters make for a long print"""
    quotes = '"' * 28
    for title, name in [("full, names without quotes", "%s%02d"), ("full, names in quotes", f'"{quotes}%s%c"')]:
        letters = [chr(0x3A + n) if "%c" in name else n for n in range(37)]
        engines = [f"engine,{name % ('E', letters[i])},309,309" for i in range(12)]
        deliveries = [f"delivery,{name % ('D', letters[p])},100,2" for p in range(37)]
        file = lines("plan,fixed,60,0", *deliveries, *engines)
        length = len(call(file, TABLE, SPARE, PRINT)[3])
        case(title, file, ("found", 60, 0))
        case(title + ", an output a byte short", file, (9, 0), output=length - 1)
        case(title + ", an output that just fits", file, ("found", 60, 0), output=length)


def expected(title, file, told, table, spare, output, size, pad):
    whole = file + pad * (size - len(file))
    text = b"%b\nfile %d %b" % (title.encode(), size, examples.shown(file))
    if size > len(file):
        text += b" and to its end " + examples.shown(pad)
    text += b", lent %d %d %d\n" % (table, spare, output)
    try:
        word, minutes, tries, print_, cells, left = call(whole, table, spare, output)
        assert told == (word, minutes, tries), (title, word, minutes, tries)
        text += b"%b %d %d" % (word.encode(), minutes, tries)
    except Refused as refusal:
        number_, record = refusal.args
        assert told == (number_, record), (title, refusal.args)
        line = b"refused,%d,%d,0\r\n" % (number_, record)
        print_, cells, left = b"", [], []
        text += b"refused %d %d, line %d %b, with a byte less 0" % (number_, record, len(line), examples.shown(line.ljust(20, b".")))
    changed = [b"".join(b" %d:%d" % pair for pair in enumerate(x)) + (b" others kept" if x else b" kept") for x in (cells, left)]
    text += b", print %d %b\n" % (len(print_), examples.shown(print_))
    return text + b"table%b, spare%b, output behind the print kept\n" % tuple(changed)


def main():
    accepted()
    refusals()
    sizes()
    lent()
    quiet()
    with open(os.path.join(HERE, "stdin"), "wb") as f:
        for title, file, told, table, spare, output, size, pad in CASES:
            head = b"%d %d %d %d %d %d:" % (len(title.encode()), len(file), table, spare, output, size)
            f.write(head + pad + title.encode() + file)
    with open(os.path.join(HERE, "stdout"), "wb") as f:
        f.write(b"".join(expected(*c) for c in CASES))


if __name__ == "__main__":
    main()
