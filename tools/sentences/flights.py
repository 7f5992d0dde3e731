"""Sentences about movements and tracks.csv."""

import os
import pathlib
import tempfile

from held import case, command

COUPLE = command("couple")
COLUMNS = "id,date,time,class,kind,runway,airport,type,circuit"
TRACK_COLUMNS = "track,date,time,class,kind,runway,airport,type"
HEADER, TRACK_HEADER = COLUMNS.encode() + b"\r\n", TRACK_COLUMNS.encode() + b"\r\n"
ROW = b"17,2026-03-31,23:58:10,V,S,06,EHBK,B738,"
TRACK = b"4,2026-04-01,00:01:00,V,S,06,EHBK,B738"


def couple(name, movements, refused, sentence, tracks=TRACK_HEADER + TRACK):
    """Both files refused, or answered where `refused` is an answer."""
    with tempfile.TemporaryDirectory() as folder:
        if tracks is not None:
            pathlib.Path(folder, "tracks.csv").write_bytes(tracks)
        answer = refused if isinstance(refused, bytes) else f"refused,{refused}\r\n".encode()
        case(name, COUPLE, movements, folder, answer, sentence.encode())


def either(name, change, refused, sentence):
    """A change of either file, by its header and a row; sentence says by both what is told, and the line shown."""
    number, line = refused.split(",")
    for file, header, row in (("movements", HEADER, ROW), ("tracks.csv", TRACK_HEADER, TRACK)):
        text = change(header, row)
        said, shown = sentence(header.decode().strip(), row.decode())
        told = f"{file}, line {line}: {said} ({number})\n" + (f"    {shown}\n" if shown else "")
        if file == "movements":
            couple(f"{name}, movements", text, refused, told)
        else:
            couple(f"{name}, tracks.csv", HEADER + ROW, refused, told, text)


def row(name, field, wrong, refusal, sentence):
    """A field of the second row of either file that is refused."""
    def change(header, line):
        fields = line.split(b",")
        fields[field] = wrong.encode()
        return header + line + b"\r\n" + b",".join(fields) + b"\r\n"

    def told(header, line):
        fields = line.split(",")
        fields[field] = wrong
        return f"{header.split(',')[field]} is {sentence}", ",".join(fields)

    either(name, change, f"{refusal},3", told)


def headers():
    """The first line, and lines as a whole."""
    bom = "the file begins with a byte order mark (BOM), expected none"
    either("BOM", lambda header, _: b"\xef\xbb\xbf" + header, "16,1",
           lambda header, _: (bom, f"\\xef\\xbb\\xbf{header}"))
    ends = "the line ends in LF, expected CRLF"
    either("LF", lambda header, _: header.replace(b"\r", b""), "16,1", lambda header, _: (ends, f"{header}\\x0a"))
    semicolons = "semicolons part the columns, expected commas"
    either("semicolons", lambda header, _: header.replace(b",", b";"), "16,1",
           lambda header, _: (semicolons, header.replace(",", ";")))
    quoted = "a field stands in quotes, expected none"
    either("quotes", lambda header, row: header + b'"' + row, "16,2", lambda _, row: (quoted, '"' + row))
    def without_kind(line):
        fields = line.split(",")
        return ",".join(fields[:4] + fields[5:])

    def too_few(header):
        return f"the number of columns is {header.count(',')}, expected {header.count(',') + 1}: {header}"

    either("header's columns", lambda header, _: without_kind(header.decode()).encode(), "16,1",
           lambda header, _: (too_few(header), without_kind(header)))
    either("row's columns", lambda header, row: header + without_kind(row.decode()).encode(), "16,2",
           lambda header, row: (too_few(header), without_kind(row)))
    either("header's name", lambda header, _: header.replace(b"runway", b"rwy"), "16,1", lambda header, _: (
        "column 6 is 'rwy', expected runway", header.replace("runway", "rwy")))
    either("row ends in LF", lambda header, row: header + row + b"\n" + row, "16,2", lambda _, row: (
        ends, f"{row}\\x0a{row}"))
    alone = "a CR without its LF stands in the line, expected CRLF"
    either("row ends in CR", lambda header, row: header + row + b"\r", "16,2", lambda _, row: (alone, f"{row}\\x0d"))
    either("empty row", lambda header, row: header + b"\r\n" + row, "16,2", lambda header, _: (
        f"the line is empty, expected {header}", ""))
    either("long line", lambda header, _: header + b"1" * 70_000, "16,2", lambda header, _: (
        f"the line is longer than any row, which has up to {46 + 2 * header.startswith('id')} bytes and CRLF",
        "1" * 100 + ".."))
    couple("no movements", b"", "16,1", f"movements, line 1: the line is empty or missing, expected {COLUMNS} (16)\n")
    first = "tracks.csv, line 1: the file can't be opened in this folder, or its first line is empty, expected "
    unread = "tracks.csv, line 1: the file can't be opened in this folder, or can't be read on (16)\n"
    couple("no tracks.csv", HEADER + ROW, "16,1", unread, None)
    couple("empty tracks.csv", HEADER + ROW, "16,1", f"{first}{TRACK_COLUMNS} (16)\n", b"")
    folder = os.open("/", os.O_RDONLY)
    couple("read error", folder, "16,1", "movements, line 1: standard input can't be read on (16)\n")
    os.close(folder)


def fields():
    """A row's fields, and what the rules say of them."""
    row("zero in front", 0, "017", 16, "'017', expected a whole number without a zero in front")
    row("blank number", 0, "", 16, "blank, expected a whole number of one to seven digits")
    row("large number", 0, "12345678", 16, "'12345678', expected a whole number of one to seven digits")
    layout = "expected yyyy-mm-dd, as 2026-03-31"
    row("date", 1, "31-03-2026", 16, f"'31-03-2026', {layout}")
    row("blank date", 1, "", 16, f"blank, {layout}")
    exists = "which doesn't exist, expected a date from 1900-01-01 to 9999-12-31"
    row("no leap year", 1, "2026-02-29", 18, f"'2026-02-29', {exists}")
    row("year 1899", 1, "1899-12-31", 18, f"'1899-12-31', {exists}")
    times = {
        "7:00:00": "an hour of one digit, expected two, as 07:00:00",
        "07:00": "expected hh:mm:ss, as 07:00:00",
        "24:00:00": "expected an hour from 00 to 23, as 07:00:00",
        "07:60:00": "expected minutes and seconds from 00 to 59, as 07:00:00",
    }
    for time, expected in times.items():
        row(time, 2, time, 16, f"'{time}', {expected}")
    row("class", 3, "G", 16, "'G', expected V (aeroplane) or H (helicopter)")
    row("kind", 4, "C", 16, "'C', expected S (start) or L (landing)")
    for field, wrong in ((5, "6-24"), (6, "ehbk"), (7, "B738X")):
        row(wrong, field, wrong, 16, f"'{wrong}', expected one to four capital letters or digits")
    row("blank runway", 5, "", 16, "blank, expected one to four capital letters or digits")
    circuit = f"movements, line 2: circuit is 'c', expected C (circuit) or nothing (16)\n    {ROW.decode()}c\n"
    couple("circuit", HEADER + ROW + b"c", "16,2", circuit)
    many = "line 50002: this is row 50,001, expected 50,000 or fewer (18)\n"
    couple("too many", HEADER + (ROW + b"\r\n") * 50_001, "18,50002", f"movements, {many}    {ROW.decode()}\n")
    couple("too many tracks", HEADER + ROW, "18,50002", f"tracks.csv, {many}    {TRACK.decode()}\n",
           TRACK_HEADER + (TRACK + b"\r\n") * 50_001)


def answers():
    """How many movements have a track, how many don't and why, and how many tracks are left."""
    def counts(found, circuits, none, left):
        all_of_them = found + circuits + none
        return (f"movements: {found} of {all_of_them} have a track, {circuits} aeroplane circuits take none, "
                f"{none} found none; tracks left: {left}\n")

    couple("no movement", HEADER, b"id,track\r\n", counts(0, 0, 0, 1))
    three = b"\r\n".join([ROW + b"C", ROW, ROW.replace(b"17", b"18"), ROW.replace(b",V,", b",H,") + b"C"])
    answer = b"id,track\r\n17,\r\n17,4\r\n18,\r\n17,\r\n"
    couple("four movements", HEADER + three, answer, counts(1, 1, 2, 0))
    couple("two tracks more", HEADER + three, answer, counts(1, 1, 2, 2),
           TRACK_HEADER + TRACK + b"\r\n" + 2 * (TRACK.replace(b"4,", b"5,", 1).replace(b"00:01", b"12:00") + b"\r\n"))


PARTS = (headers, fields, answers)
