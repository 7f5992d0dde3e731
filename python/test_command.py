"""Tests of `python3 -m okubinrafo`: the texts of both programs, their refusals in order, and the exit status."""

import os
import pty
import subprocess
import sys
import tempfile
import unittest

import okubinrafo
from okubinrafo import Account, Book, Group, Refused
from okubinrafo.reports import explained

HERE = os.path.dirname(os.path.abspath(__file__))
TOP = os.path.dirname(HERE)
LIMITS = "days,p1\r\n1,56.65\r\n"
HEADER = "id,type,mtow,kind,time,l1\r\n"
ROWS = "1,G,70000,S,07:00:00,100.00\r\n2,G,70000,S,18:59:59,100.00\r\n3,G,70000,S,12:00:00,\r\n4,H,3000,L,23:00:00,\r\n"
REPORT = "point,level,limit,verdict,computed,missing\r\n"
EXPLAIN = "point,type,kind,period,computed,missing,factor,energy,counted\r\n"
# What the rules' file explains, line by line.
EXPLAINED = [
    "1,G,S,day,2,1,3/2,20000000000,30000000000",
    "1,H,L,night,0,1,,0,0",
    "1,all,,,2,2,4/3,30000000000,40000000000",
]


def rows_of(count):
    return "".join(f"{identity},G,70000,S,07:00:00,60.00\r\n" for identity in range(1, count + 1))


class Case(unittest.TestCase):
    def setUp(self):
        folder = tempfile.TemporaryDirectory()
        self.addCleanup(folder.cleanup)
        self.folder = folder.name

    def write(self, name, text):
        with open(os.path.join(self.folder, name), "wb") as file:
            file.write(text if isinstance(text, bytes) else text.encode())

    def run_in_folder(self, *words, command=None, library=None, **streams):
        environment = {**os.environ, "PYTHONPATH": HERE}
        if library is not None:
            environment["OKUBINRAFO_LIB"] = library
        command = command or [sys.executable, "-B", "-m", "okubinrafo", *words]
        streams = {"stdin": subprocess.DEVNULL, "stdout": subprocess.PIPE, **streams}
        if "input" in streams:
            del streams["stdin"]
        return subprocess.run(command, cwd=self.folder, env=environment, stderr=subprocess.PIPE, timeout=120, **streams)

    def runs(self, status, text, *words, **streams):
        """Runs the command, holds it to its status and standard output, and answers with its sentences."""
        ran = self.run_in_folder(*words, **streams)
        sentences = ran.stderr.decode()
        self.assertEqual((ran.returncode, (ran.stdout or b"").decode()), (status, text), sentences)
        return sentences

    def reports(self, status, text, limits, register):
        self.write("limits.csv", limits)
        self.write("register.csv", register)
        return self.runs(status, text, "report", "register.csv")


class Reports(Case):
    def test_the_documents_files(self):
        document = os.path.join(TOP, "examples", "document")
        register, limits = (os.path.join(document, name) for name in ("register.csv", "limits.csv"))
        answer = REPORT + "1,56.66,56.65,over,2,2\r\n"
        self.assertEqual(self.runs(0, answer, "report", register, "--limits", limits), "")
        self.assertEqual(self.reports(0, answer, LIMITS, HEADER + ROWS), "")
        self.assertEqual(self.runs(0, answer, "report", input=(HEADER + ROWS).encode()), "")

    def test_nothing_to_report(self):
        below = REPORT + "1,below,56.65,within,0,0\r\n"
        self.assertEqual(self.reports(0, below, LIMITS, HEADER), "")
        light = self.reports(0, below, LIMITS, HEADER + "0,G,150,S,07:00:00,999.99")
        self.assertIn("rows of 150 kg or less that were passed over: 1", light)
        whole = self.reports(1, "refused,10,0\r\n", LIMITS, HEADER + "1,G,151,S,07:00:00,")
        self.assertIn(f"register.csv: refused 10: {Refused(10).sentence}", whole)

    def test_refusals_name_their_line(self):
        row = "7,G,70000,S,07:00:00,1.00\r\n"
        for limits, register, expected in [
            ("", "", "16,1"),
            ("days,p1\n1,1.00", "", "16,1"),
            ("days,p2\r\n1,1.00", "", "16,1"),
            ("days\r\n1", "", "16,1"),
            ("days" + "".join(f",p{n}" for n in range(1, 10)) + "\r\n1" + ",1.00" * 9, "", "16,1"),
            ("days,p1", "", "16,2"),
            ("days,p1\r\n\r\n", "", "16,2"),
            ("days,p1\r\n1,", "", "16,2"),
            ("days,p1\r\n01,1.00", "", "16,2"),
            ("days,p1\r\n1,01.00", "", "16,2"),
            ("days,p1\r\n1,1.00\n", "", "16,2"),
            ("days,p1\r\n1,1.00,1.00\r\n", "", "16,2"),
            ("days,p1\r\n1,1.00\r\n\r\n", "", "16,3"),
            ("days,p1\r\n1\r\nx", "", "16,2"),
            ("days,p1\r\n0,120.01", "", "11,2"),
            ("days,p1\r\n367,1.00", "", "11,2"),
            ("days,p1,p2\r\n1,1.00,120.01", "", "15,2"),
            (LIMITS, "", "16,1"),
            (LIMITS, HEADER.replace("\r", "") + row, "16,1"),
            (LIMITS, "id,type,mtow,kind,time,l1,l2\r\n", "16,1"),
            (LIMITS, HEADER + row + "8,G,70000,S,07:00:00\r\n", "16,3"),
            (LIMITS, HEADER + row + "\r\n", "16,3"),
            (LIMITS, HEADER + row + "7,G,70000,S,07:00:00,999.99\r\nx", "4,3"),
            (LIMITS, HEADER + "7,G,70000,S,07:00:00,120.01", "7,2"),
            (LIMITS, HEADER + "0,G,70000,S,07:00:00,120.01", "3,2"),
            (LIMITS, HEADER + "0,K,6000,S,07:00:00,", "1,2"),
            (LIMITS, HEADER + "9" * 1_000_000, "16,2"),
        ]:
            with self.subTest(limits=limits, register=register[:200]):
                sentence = self.reports(1, f"refused,{expected}\r\n", limits, register)
                place = "register.csv" if limits == LIMITS else "limits.csv"
                number, line = expected.split(",")
                self.assertIn(f"{place}, line {line}: refused {number}: ", sentence)

    def test_up_to_50_000_rows(self):
        for count, line in ((2001, "1,43.65,56.65,within,2001,0"), (50_000, "1,57.62,56.65,over,50000,0")):
            self.assertEqual(self.reports(0, f"{REPORT}{line}\r\n", LIMITS, HEADER + rows_of(count)), "")
        self.reports(1, "refused,6,50002\r\n", LIMITS, HEADER + rows_of(60_000) + "x")

    def test_files_that_cannot_be_read(self):
        self.write("limits.csv", LIMITS)
        missing = self.runs(1, "refused,16,1\r\n", "report", "nowhere.csv")
        self.assertIn("nowhere.csv, line 1: refused 16: No such file or directory", missing)
        self.assertIn("directory", self.runs(1, "refused,16,1\r\n", "report", "."))
        closed = self.run_in_folder(command=["sh", "-c", f"exec '{sys.executable}' -m okubinrafo report <&-"])
        self.assertEqual((closed.returncode, closed.stdout), (1, b"refused,16,1\r\n"), closed.stderr.decode())
        os.remove(os.path.join(self.folder, "limits.csv"))
        missing = self.runs(1, "refused,16,1\r\n", "report", "nowhere.csv")
        self.assertIn("limits.csv, line 1: refused 16: No such file or directory", missing)

    def programs(self):
        """The proved programs' commands, by name."""
        return {name: os.environ[f"OKUBINRAFO_{name.upper()}"] for name in ("report", "explain")}

    @unittest.skipUnless(
        {"OKUBINRAFO_REPORT", "OKUBINRAFO_EXPLAIN"} <= set(os.environ), "no programs are named to compare with"
    )
    def test_the_proved_programs_very_text(self):
        quarter = os.path.join(TOP, "examples", "quarter")
        texts = {}
        for name in ("limits.csv", "register.csv"):
            with open(os.path.join(quarter, name), "rb") as file:
                texts[name] = file.read()
                self.write(name, texts[name])
        register = texts["register.csv"]
        cut, twice = register[: len(register) // 2], register + register.splitlines(keepends=True)[7]
        wrong = register.replace(b"S,12", b"S,24")
        for name, command in self.programs().items():
            for given, status in ((register, 0), (cut, 1), (twice, 1), (wrong, 1)):
                proved = self.run_in_folder(command=["sh", "-c", command], input=given)
                self.assertEqual(proved.stdout.startswith(b"refused"), status == 1)
                self.runs(status, proved.stdout.decode(), name, input=given)


class Explanations(Case):
    def test_the_lines_of_an_account(self):
        groups = [Group(0, 0, 0, 0)] * 18
        groups[0], groups[17] = Group(2, 1, 2 * 10**10, 3 * 10**10), Group(0, 1, 0, 0)
        account = Account(tuple(groups), (4, 3), 3 * 10**10, 4 * 10**10, 5666)
        self.assertEqual(list(explained(1, account)), EXPLAINED)
        groups[:] = [Group(0, number, 0, 0) for number in range(18)]
        names = [line.split(",")[1:4] for line in explained(2, Account(tuple(groups), None, 0, 0, None))]
        group = [[letter, kind, period] for letter in "GKH" for kind in "SL" for period in ("day", "evening", "night")]
        self.assertEqual(names, [*group[1:], ["all", "", ""]])
        nothing = Account((Group(0, 0, 0, 0),) * 18, None, 0, 0, None)
        self.assertEqual(list(explained(8, nothing)), ["8,all,,,0,0,,0,0"])

    def test_the_documents_files(self):
        self.write("limits.csv", LIMITS)
        self.write("register.csv", HEADER + ROWS)
        answer = EXPLAIN + "".join(line + "\r\n" for line in EXPLAINED)
        self.assertEqual(self.runs(0, answer, "explain", "register.csv"), "")
        self.runs(1, "refused,10,0\r\n", "explain", input=(HEADER + "1,G,151,S,07:00:00,").encode())
        self.runs(1, "refused,4,3\r\n", "explain", input=(HEADER + 2 * "1,G,151,S,07:00:00,\r\n").encode())
        self.runs(0, EXPLAIN + "1,all,,,0,0,,0,0\r\n", "explain", input=HEADER.encode())

    def test_the_quarters_very_text(self):
        quarter = os.path.join(TOP, "examples", "quarter")
        with open(os.path.join(quarter, "explain.csv"), newline="") as file:
            answer = file.read()
        limits = os.path.join(quarter, "limits.csv")
        self.runs(0, answer, "explain", os.path.join(quarter, "register.csv"), "--limits", limits)

    def test_an_account_is_the_loads(self):
        book = Book(2000, 4)
        book.read_register(os.path.join(TOP, "examples", "quarter", "register.csv"))
        for point in range(4):
            load, account = book.load(point, 91), book.account(point, 91)
            self.assertEqual((account.total, account.level), (load.total, load.level))
            self.assertEqual(tuple(group.computed for group in account.groups), load.computed)
            self.assertEqual(tuple(group.missing for group in account.groups), load.missing)
            for group in account.groups:
                standing = group.computed + group.missing
                self.assertEqual(group.counted, group.energy * standing // group.computed if group.computed else 0)
            upper, lower = account.factor
            self.assertEqual(upper, sum(load.computed) + sum(load.missing))
            self.assertEqual(account.energy, sum(group.counted for group in account.groups))
            self.assertEqual(account.total, account.energy * upper // lower)


class Statuses(Case):
    def test_help_and_version(self):
        version = self.run_in_folder("--version")
        self.assertEqual((version.returncode, version.stdout), (0, f"okubinrafo {okubinrafo.__version__}\n".encode()))
        for words in (["--help"], ["report", "--help"], ["explain", "-h"]):
            told = self.run_in_folder(*words, library="/nowhere")
            self.assertEqual((told.returncode, told.stderr), (0, b""), words)
            self.assertIn(b"usage: python3 -m okubinrafo", told.stdout)
            self.assertIn(b"Exit status: 0 answered, 1 refused, 2", told.stdout)

    def test_wrong_usage(self):
        for words in ([], ["load"], ["report", "a", "b"], ["report", "--limit", "x"], ["explain", "--limits"], ["--x"]):
            self.assertIn("usage: python3 -m okubinrafo", self.runs(2, "", *words))

    def test_a_terminal_is_no_register(self):
        self.write("limits.csv", LIMITS)
        ours, theirs = pty.openpty()
        self.addCleanup(os.close, ours)
        self.addCleanup(os.close, theirs)
        self.assertIn("name a register", self.runs(2, "", "report", stdin=theirs))

    def test_an_answer_that_cannot_be_written(self):
        self.write("limits.csv", LIMITS)
        self.write("register.csv", HEADER + ROWS)
        full = "the answer could not be written: No space left on device"
        with open("/dev/full", "wb") as device:
            for words in (["report", "register.csv"], ["report", "limits.csv"], ["--help"], ["--version"]):
                self.assertIn(full, self.runs(3, "", *words, stdout=device))
        reader, writer = os.pipe()
        os.close(reader)
        self.assertIn("Broken pipe", self.runs(3, "", "report", "register.csv", stdout=writer))
        os.close(writer)
        closed = self.run_in_folder(command=["sh", "-c", f"'{sys.executable}' -m okubinrafo report register.csv >&-"])
        self.assertEqual(closed.returncode, 3)
        self.assertIn(b"could not be written", closed.stderr)

    def test_a_missing_library_names_what_builds_it(self):
        self.write("limits.csv", LIMITS)
        command = "tools/native-lib okubinrafo python/okubinrafo/libokubinrafo.so"
        self.assertTrue(os.access(os.path.join(TOP, command.split()[0]), os.X_OK))
        for library in ("/nowhere/libokubinrafo.so", os.path.join(HERE, "pyproject.toml")):
            sentence = self.runs(3, "", "report", input=HEADER.encode(), library=library)
            self.assertIn(command, sentence)
            self.assertIn(library, sentence)
        code = "import okubinrafo; okubinrafo.Book(1, 1).load(0, 1)"
        raised = self.run_in_folder(command=[sys.executable, "-B", "-c", code], library="libm.so.6")
        self.assertIn(b"LibraryMissing: libm.so.6 has no okubinrafo_load; in the repository, `tools/", raised.stderr)


if __name__ == "__main__":
    unittest.main()
