"""Sentences about a network and the levels of its contours."""

import os

from held import case, command

CONTOURS = command("contours")
NETWORK = "ncols 3\r\nnrows 2\r\nxllcenter 0\r\nyllcenter 0\r\ncellsize 100\r\n"
ROWS = "40.00 50.00 40.00\r\n40.00 40.00 40.00\r\n"
SIZES = "rows: 2 by the header and 2 in the file; values: 6 by the header and 6 in the file"
LAYOUT = "expected one to three digits, a point and two or three decimals, as 56.00"
# The longest text that is neither off its layout nor of a wrong size, one byte less than the program's room.
HEADER = "ncols 256\r\nnrows 256\r\nxllcenter 900000\r\nyllcenter 900000\r\ncellsize 500\r\nNODATA_value -999.999\r\n"
LONGEST = HEADER + (" ".join(["-999.999"] * 256) + "\r\n") * 256
assert len(LONGEST) == 590_175


def contours(name, text, levels, refused, sentence):
    answer = refused if isinstance(refused, bytes) else f"refused,{refused}\r\n".encode()
    stdin = text if isinstance(text, int) else text.encode()
    case(name, [*CONTOURS, *levels], stdin, None, answer, sentence.encode())


def network(name, text, refused, line, sentence, shown):
    number = refused.split(",")[0]
    said = f"network, line {line}: {sentence} ({number})\n" + (f"    {shown}\n" if shown else "")
    contours(name, text, ["45.00"], refused, said)


def networks():
    """A network's layout, size and values."""
    whole = NETWORK + ROWS
    network("network's BOM", "\ufeff" + whole, "17,1", 1, "the file begins with a byte order mark (BOM), expected none",
            "\\xef\\xbb\\xbfncols 3")
    ends = "the line ends in LF, expected CRLF"
    network("network's LF", whole.replace("\r\n", "\n", 1), "17,1", 1, ends, "ncols 3\\x0anrows 2")
    network("key", whole.replace("xllcenter", "xllcorner"), "17,3", 3, "the key is 'xllcorner', expected xllcenter",
            "xllcorner 0")
    spaces = "expected one space and one number behind ncols"
    network("spaces", whole.replace("ncols 3", "ncols   3"), "17,1", 1, spaces, "ncols   3")
    number = "cellsize is '0.5', expected a whole number of one to seven digits"
    network("header's number", whole.replace("size 100", "size 0.5"), "17,5", 5, number, "cellsize 0.5")
    missing = "the line is empty or missing, expected cellsize and a whole number"
    network("short header", NETWORK[:NETWORK.index("cell")], "17,5", 5, missing, "")
    spelled = "NODATA_value is 'none', expected a whole number or a level, with a minus or without"
    network("no data", NETWORK + "NODATA_value none\r\n" + ROWS, "17,6", 6, spelled, "NODATA_value none")
    comma = "row 1, column 2 is '50,00', with a decimal comma, expected a point, as 56.00"
    network("network's decimal comma", whole.replace("50.00", "50,00"), "17,6", 6, comma, "40.00 50,00 40.00")
    bare = "row 1, column 2 is '50', a level without decimals, expected two or three, as 56.00"
    network("value without decimals", whole.replace("50.00", "50"), "17,6", 6, bare, "40.00 50 40.00")
    for value in ("50.0", "50.0000", "-50.000"):
        off = f"row 1, column 2 is '{value}', {LAYOUT}"
        network(f"value {value}", whole.replace("50.00", value), "17,6", 6, off, f"40.00 {value} 40.00")
    blank = "row 1, column 1 is blank, expected one space between values and none around them"
    network("space in front", NETWORK + " " + ROWS, "17,6", 6, blank, " 40.00 50.00 40.00")
    parted = "semicolons part the values, expected one space"
    network("network's semicolons", whole.replace(".00 ", ".00;"), "17,6", 6, parted, "40.00;50.00;40.00")
    quoted = "a value stands in quotes, expected none"
    network("network's quotes", whole.replace("50.00", '"50.00"'), "17,6", 6, quoted, '40.00 "50.00" 40.00')
    tab = "a tab stands in the line, expected one space"
    network("tab", NETWORK.replace("ncols ", "ncols\t") + ROWS, "17,1", 1, tab, "ncols\\x093")
    network("empty row of values", whole + "\r\n", "17,8", 8, "the line is empty, expected a row of values", "")
    under = f"row 2, column 3 is missing; {SIZES.replace('and 6', 'and 5')}"
    network("value missing", whole[:-8] + "\r\n", "12,0", 7, under, "40.00 40.00")
    over = f"row 1, column 4 is one value too many; {SIZES.replace('and 6', 'and 7')}"
    network("value too many", NETWORK + "1.00 " + ROWS, "12,0", 6, over, "1.00 40.00 50.00 40.00")
    short = "row 2, column 1 is missing; " + SIZES.replace("and 2", "and 1").replace("and 6", "and 3")
    network("row missing", NETWORK + ROWS[:19], "12,0", 7, short, "")
    long = "row 3, column 1 is one value too many; " + SIZES.replace("and 2", "and 4").replace("and 6", "and 12")
    network("row too many", whole + ROWS, "12,0", 8, long, "40.00 50.00 40.00")
    side = f"ncols is '1', expected 2 to 256; {SIZES.replace('6 by', '2 by')}"
    network("ncols", whole.replace("ncols 3", "ncols 1"), "12,0", 1, side, "ncols 1")
    place = f"yllcenter is '900001', expected 900,000 or less; {SIZES}"
    network("yllcenter", whole.replace("yllcenter 0", "yllcenter 900001"), "12,0", 4, place, "yllcenter 900001")
    space = f"cellsize is '501', expected 1 to 500; {SIZES}"
    network("cellsize", whole.replace("size 100", "size 501"), "12,0", 5, space, "cellsize 501")
    for value in ("150.001", "150.01"):
        high = f"row 1, column 2 is '{value}', expected 150.000 or less; {SIZES}"
        network(f"level {value}", whole.replace("50.00", value), "13,0", 6, high, f"40.00 {value} 40.00")
    for value in ("50.00", "50.000"):
        none = f"row 1, column 2 is '{value}', which is no data, expected a level; {SIZES}"
        rows = f"NODATA_value {value}\r\n" + ROWS.replace("50.00", value)
        network(f"no-data value {value}", NETWORK + rows, "13,0", 7, none, f"40.00 {value} 40.00")
    none = f"row 2, column 1 is '-9999', which is no data, expected a level; {SIZES}"
    network("no data without its line", NETWORK + ROWS[:19] + "-9999" + ROWS[24:], "13,0", 7, none, "-9999 40.00 40.00")
    full = "network: 590,176 bytes or more, and no network of 256 rows of 256 values has as many (12)\n"
    contours("overlong", NETWORK + ROWS * 16000, ["45.00"], "12,0", full)
    cut = ("-999.999 " * 12)[:100] + ".."
    sizes = "rows: 256 by the header and 256 in the file; values: 65536 by the header and 65536 in the file"
    none = f"row 1, column 1 is '-999.999', which is no data, expected a level; {sizes}"
    network("longest", LONGEST, "13,0", 7, none, cut)
    contours("longest and a byte", LONGEST.replace("ncols 256", "ncols 2560"), ["45.00"], "12,0", full)
    last = f"row 256, column 256 is '-999.999xx', {LAYOUT}"
    network("wrong line that fits", LONGEST[:-2] + "xx", "17,262", 262, last, cut)
    contours("wrong line without its end", LONGEST[:-2] + "xxx", ["45.00"], "12,0", full)
    cut = "x" * 100 + ".."
    network("overlong line", "x" * 700000, "17,1", 1, f"the key is '{cut}', expected ncols", cut)
    folder = os.open("/", os.O_RDONLY)
    network("network's read error", folder, "17,1", 1, "standard input can't be read on", "")
    os.close(folder)


def levels():
    """The arguments of contours, and warnings on what is drawn."""
    whole = NETWORK + ROWS
    contours("no level", whole, [], "15,0",
             "arguments: no contour level, expected one or more from 0.001 to 150.000, as 45.00 56.00 (15)\n")
    words = {
        "45": "a level without decimals, expected two or three, as 56.00",
        "45,00": "with a decimal comma, expected a point, as 56.00",
        "45,000": "with a decimal comma, expected a point, as 56.00",
        "0.000": "expected 0.001 to 150.000",
        "150.001": "expected 0.001 to 150.000",
        "150.01": "expected 0.001 to 150.000",
        "45.0": LAYOUT,
        "45.0000": LAYOUT,
        "-45.00": LAYOUT,
        "9" * 120: "a level without decimals, expected two or three, as 56.00",
    }
    for word, expected in words.items():
        shown = word if len(word) < 100 else word[:100] + ".."
        contours(f"level {word}", whole, ["45.00", word, "x"], "15,0",
                 f"arguments: level 2 is '{shown}', {expected} (15)\n")
    contours("15,001 levels", whole, ["45.00"] * 15001, "14,0",
             "arguments: the number of contour levels is 15001, expected 15,000 or less (14)\n")
    contours("no contour above", whole, ["60.00"], b"level;wkt\r\n60.000;MULTILINESTRING EMPTY\r\n",
             "level 60.000: no contour, since every value of the network is lower\n")
    contours("no contour a thousandth above", whole, ["50.001"], b"level;wkt\r\n50.001;MULTILINESTRING EMPTY\r\n",
             "level 50.001: no contour, since every value of the network is lower\n")
    contours("no contour below", whole, ["40.000"], b"level;wkt\r\n40.000;MULTILINESTRING EMPTY\r\n",
             "level 40.000: no contour, since no value of the network is lower\n")
    contours("open line", whole, ["45.00"],
             b"level;wkt\r\n45.000;MULTILINESTRING ((50.000 100.000, 100.000 50.000, 150.000 100.000))\r\n",
             "level 45.000: lines that are open at the map's edge: 1 of 1\n")
    closed = NETWORK.replace("nrows 2", "nrows 3") + "40.00 40.00 40.00\r\n" + ROWS
    contours("closed line", closed, ["45.00"],
             b"level;wkt\r\n45.000;MULTILINESTRING ((50.000 100.000, 100.000 50.000, 150.000 100.000, 100.000 150.000, "
             b"50.000 100.000))\r\n", "")


PARTS = (networks, levels)
