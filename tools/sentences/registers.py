"""Sentences about a register and limits.csv: what report refuses, explain refuses alike."""

import os
import pathlib
import tempfile

from held import case, command

REPORT, EXPLAIN = command("report"), command("explain")
LIMITS = b"days,p1\r\n365,56.65\r\n"
LIMITS_2 = b"days,p1,p2\r\n365,56.65,56.65\r\n"
HEADER = b"id,type,mtow,kind,time,l1\r\n"
HEADER_2 = b"id,type,mtow,kind,time,l1,l2\r\n"
ROW = b"1,G,70000,S,07:00:00,100.00"
COLUMNS = "id,type,mtow,kind,time,l1"


def report(name, register, refused, sentence, limits=LIMITS):
    """A register refused, or answered where `refused` is an answer."""
    with tempfile.TemporaryDirectory() as folder:
        if limits is not None:
            pathlib.Path(folder, "limits.csv").write_bytes(limits)
        answer = refused if isinstance(refused, bytes) else f"refused,{refused}\r\n".encode()
        for words in (REPORT,) if answer is refused else (REPORT, EXPLAIN):
            case(name, words, register, folder, answer, sentence.encode())


def row(name, line, refusal, sentence, header=HEADER, limits=LIMITS, rest=b""):
    """A register whose only row is refused, with the line's text as it is shown."""
    shown = sentence[1] if isinstance(sentence, tuple) else line.decode()
    said = sentence[0] if isinstance(sentence, tuple) else sentence
    said = f"register, line 2: {said} ({refusal})\n" + (f"    {shown}\n" if shown else "")
    report(name, header + line + b"\r\n" + rest, f"{refusal},2", said, limits)


def limits_off(name, text, refused, sentence, shown):
    number, line = refused.split(",")
    said = f"limits.csv, line {line}: {sentence} ({number})\n" + (f"    {shown}\n" if shown else "")
    report(name, HEADER + ROW, refused, said, text)


def registers():
    """The register's first line, and lines as a whole."""
    bom = "the file begins with a byte order mark (BOM), expected none (16)\n"
    first = "register, line 1: "
    report("BOM", b"\xef\xbb\xbf" + HEADER, "16,1", f"{first}{bom}    \\xef\\xbb\\xbf{COLUMNS}\n")
    report(
        "LF, cut at 100 bytes",
        (HEADER + ROW * 4).replace(b"\r\n", b"\n"),
        "16,1",
        f"{first}the line ends in LF, expected CRLF (16)\n    {COLUMNS}\\x0a" + (ROW * 4).decode()[:74] + "..\n",
    )
    semicolons = "semicolons part the columns, expected commas"
    parted = HEADER.replace(b",", b";")
    report("semicolons", parted, "16,1", f"{first}{semicolons} (16)\n    {parted.decode().strip()}\n")
    report("quotes", b'"id",type\r\n', "16,1", f'{first}a field stands in quotes, expected none (16)\n    "id",type\n')
    report("empty", b"", "16,1", f"{first}the line is empty or missing, expected {COLUMNS} (16)\n")
    points = "the number of points is 2 in the header and 1 in limits.csv"
    report("points", HEADER_2, "16,1", f"{first}{points} (16)\n    {COLUMNS},l2\n")
    wide = f"the number of columns is 5, expected 6: {COLUMNS}"
    report("header's columns", b"id,type,mtow,kind,l1\r\n", "16,1", f"{first}{wide} (16)\n    id,type,mtow,kind,l1\n")
    named = HEADER.replace(b"mtow", b"mass")
    other = "column 3 is 'mass', expected mtow"
    report("header's name", named, "16,1", f"{first}{other} (16)\n    {named.decode().strip()}\n")
    ends = "the line ends in LF, expected CRLF"
    row("row ends in LF", ROW + b"\n" + ROW, 16, (ends, f"{ROW.decode()}\\x0a{ROW.decode()}"))
    ends = "a CR without its LF stands in the line, expected CRLF"
    row("row ends in CR", ROW + b"\r", 16, (ends, f"{ROW.decode()}\\x0d"))
    row("row of semicolons", ROW.replace(b",", b";"), 16, semicolons)
    row("quoted row", b'"1"' + ROW[1:], 16, "a field stands in quotes, expected none")
    row("empty row", b"", 16, f"the line is empty, expected {COLUMNS}", rest=ROW)
    long = "the line is longer than any row, which has up to 84 bytes and CRLF"
    row("long line", b"1" * 70000, 16, (long, "1" * 100 + ".."))
    row("unprintable", b"1,\x00\x7f\xc3\xa9,70000,S,07:00:00,100.00", 16, (
        "type is '\\x00\\x7f\\xc3\\xa9', expected G (large), K (small) or H (helicopter)",
        "1,\\x00\\x7f\\xc3\\xa9,70000,S,07:00:00,100.00",
    ))
    folder = os.open("/", os.O_RDONLY)
    report("read error", folder, "16,1", f"{first}standard input can't be read on (16)\n")
    os.close(folder)


def fields():
    """A row's fields, and what the rules say of them."""
    wide = f"the number of columns is 5, expected 6: {COLUMNS}"
    row("columns", b"1,G,70000,S,07:00:00", 16, wide)
    comma = "with a decimal comma, expected a point, as 56.00"
    row("decimal comma", b"1,G,70000,S,07:00:00,100,00", 16, f"l1 is '100,00', {comma}")
    row("second decimal comma", ROW + b",99,50", 16, f"l2 is '99,50', {comma}", HEADER_2, LIMITS_2)
    few = b"1,G,70000,S,07:00:00"
    row("25 columns", few + b"," * 20, 16, f"the number of columns is 25, expected 6: {COLUMNS}")
    row("more columns than are looked through", few + b"," * 21, 16, f" is ',', {comma}")
    row("a decimal comma past those", few + b"," * 19 + b",100,00", 16, f" is '100,00', {comma}")
    bare = "a level without decimals, expected two, as 56.00"
    row("no decimals", b"1,G,70000,S,07:00:00,100", 16, f"l1 is '100', {bare}")
    level = "expected one to three digits, a point and two decimals, as 56.00"
    row("one decimal", b"1,G,70000,S,07:00:00,100.0", 16, f"l1 is '100.0', {level}")
    some = "l2 is blank where another level isn't, expected a level for each point, or none"
    row("some blank", ROW + b",", 16, some, HEADER_2, LIMITS_2)
    times = {
        "7:00:00": "an hour of one digit, expected two, as 07:00:00",
        "07:00": "expected hh:mm:ss, as 07:00:00",
        "24:00:00": "expected an hour from 00 to 23, as 07:00:00",
        "07:60:00": "expected minutes and seconds from 00 to 59, as 07:00:00",
    }
    for time, expected in times.items():
        row(time, ROW.replace(b"07:00:00", time.encode()), 16, f"time is '{time}', {expected}")
    row("type", ROW.replace(b"G", b"g"), 16, "type is 'g', expected G (large), K (small) or H (helicopter)")
    row("kind", ROW.replace(b"S", b"T"), 16, "kind is 'T', expected S (start) or L (landing)")
    mass = "mtow is '70.000', expected a whole number of one to seven digits"
    row("mtow", ROW.replace(b"70000", b"70.000"), 16, mass)
    row("zero in front", b"0" + ROW, 16, "id is '01', expected a whole number without a zero in front")
    row("blank", ROW[1:], 16, "id is blank, expected a whole number of one to seven digits")
    row("rule 1, mtow", ROW.replace(b"70000", b"1000001"), 1, "mtow is '1000001', expected 1,000,000 or less")
    small = "mtow is '6000' where type is 'K' (small), expected less than 6,000"
    row("rule 1, small", b"1,K,6000,S,07:00:00,100.00", 1, small)
    row("rule 3", b"100000" + ROW[1:], 3, "id is '100000', expected 1 to 99,999")
    row("rule 7", ROW.replace(b"100.00", b"120.01"), 7, "l1 is '120.01', expected 120.00 or less")
    again = f"register, line 3: id is '1', which an earlier row has, expected another (4)\n    {ROW.decode()}\n"
    report("rule 4", HEADER + ROW + b"\r\n" + ROW, "4,3", again)
    many = HEADER + b"".join(b"%d" % (i + 1) + ROW[1:] + b"\r\n" for i in range(2001))
    room = "register, line 2002: id is '2001' and finds no room: the report's book has 2,000 rows (6)\n"
    report("rule 6", many, "6,2002", f"{room}    2001{ROW[1:].decode()}\n")
    none = "movements count at the point, and none of them has levels, so no load can be worked out"
    report("rule 10", HEADER + b"1,G,70000,S,07:00:00,", "10,0", f"register: {none} (10)\n")


def answers():
    """A report that is answered, without rows that were passed over and with some."""
    answer = b"point,level,limit,verdict,computed,missing\r\n1,25.01,56.65,within,1,0\r\n"
    report("answered", HEADER + ROW, answer, "")
    light = b"\r\n2,H,150,S,07:00:00,\r\n2,H,0,S,07:00:00,"
    passed = "register: rows of 150 kg or less that were passed over: 2\n"
    report("passed over", HEADER + ROW + light, answer, passed)
    report("passed over, last line ended", HEADER + ROW + light + b"\r\n", answer, passed)


def limits():
    """limits.csv, line by line."""
    none = "limits.csv, line 1: the file can't be opened in this folder, or is empty (16)\n"
    report("no limits", HEADER + ROW, "16,1", none, None)
    bom = "the file begins with a byte order mark (BOM), expected none"
    limits_off("limits' BOM", b"\xef\xbb\xbf" + LIMITS, "16,1", bom, "\\xef\\xbb\\xbfdays,p1")
    ends = "the line ends in LF, expected CRLF"
    limits_off("limits' LF", LIMITS.replace(b"\r", b""), "16,1", ends, "days,p1\\x0a365,56.65\\x0a")
    parted = "semicolons part the columns, expected commas"
    limits_off("limits' semicolons", LIMITS.replace(b",", b";"), "16,1", parted, "days;p1")
    quoted = "a field stands in quotes, expected none"
    limits_off("limits' quotes", b'days,p1\r\n"365",56.65', "16,2", quoted, '"365",56.65')
    limits_off("limits' name", b"dagen,p1\r\n", "16,1", "column 1 is 'dagen', expected days", "dagen,p1")
    wide = "the number of columns is 1, expected 2 to 9: days, and p1 to p8 at most"
    limits_off("limits' header", b"days\r\n365\r\n", "16,1", wide, "days")
    limits_off("limits' second line", b"days,p1\r\n", "16,2", "the line is empty or missing, expected days,p1", "")
    columns = "the number of columns is 1, expected 2: days,p1"
    limits_off("limits' columns", b"days,p1\r\n365", "16,2", columns, "365")
    comma = "p1 is '56,65', with a decimal comma, expected a point, as 56.00"
    limits_off("limits' decimal comma", b"days,p1\r\n365,56,65", "16,2", comma, "365,56,65")
    past = " is ',', with a decimal comma, expected a point, as 56.00"
    many = b"365" + b"," * 25
    limits_off("limits' columns past those looked through", b"days,p1\r\n" + many, "16,2", past, many.decode())
    bare = "p1 is '56', a level without decimals, expected two, as 56.00"
    limits_off("limit without decimals", b"days,p1\r\n365,56", "16,2", bare, "365,56")
    days = "days is '1.5', expected a whole number of one to seven digits"
    limits_off("days", b"days,p1\r\n1.5,56.65", "16,2", days, "1.5,56.65")
    limits_off("third line", LIMITS + b"1\r\n", "16,3", "this is a third line, expected two", "1")
    limits_off("rule 11", b"days,p1\r\n367,56.65", "11,2", "days is '367', expected 1 to 366", "367,56.65")
    over = "p2 is '120.01', expected 120.00 or less"
    limits_off("rule 15", b"days,p1,p2\r\n1,1.00,120.01", "15,2", over, "1,1.00,120.01")


PARTS = (registers, fields, answers, limits)
