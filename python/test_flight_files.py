"""Tests of the files of movements and radar tracks, and of `python3 -m okubinrafo couple`."""

import io
import os
import tempfile
import unittest

from okubinrafo import Movement, Refused, Track, couple, read_movements, read_tracks
from test_command import TOP, Case

EXAMPLE = os.path.join(TOP, "examples", "tracks")
MOVEMENT_TEXT = b"id,date,time,class,kind,runway,airport,type,circuit\r\n"
TRACK_TEXT = b"track,date,time,class,kind,runway,airport,type\r\n"
MOVEMENT_LINE = b"17,2026-03-31,23:58:10,V,S,06,EHBK,B738,\r\n"
TRACK_LINE = b"4,2026-04-01,00:01:00,V,S,06,EHBK,B738\r\n"


class Files(unittest.TestCase):
    def refused_at(self, number, line, read, text):
        with self.subTest(text=text[:200]), self.assertRaises(Refused) as caught:
            read(io.BytesIO(text))
        self.assertEqual((caught.exception.number, caught.exception.line), (number, line))

    def test_what_is_read(self):
        read = read_movements(io.BytesIO(MOVEMENT_TEXT + MOVEMENT_LINE + MOVEMENT_LINE.replace(b",\r", b",C\r")))
        one = Movement(17, 20260331, 86_290, 0, 0, "06", "EHBK", "B738", 0)
        self.assertEqual(read, [one, one._replace(circuit=1)])
        with tempfile.TemporaryDirectory() as folder:
            path = os.path.join(folder, "tracks.csv")
            with open(path, "wb") as file:
                file.write(TRACK_TEXT + TRACK_LINE + b"9999999,9999-12-31,23:59:59,H,L,0606,EHBK,EC35")
            tracks = read_tracks(path)
            with self.assertRaises(FileNotFoundError):
                read_tracks(os.path.join(folder, "nothing.csv"))
        self.assertEqual(tracks[0], Track(4, 20260401, 60, 0, 0, "06", "EHBK", "B738"))
        self.assertEqual(tracks[1], Track(9999999, 99991231, 86_399, 1, 1, "0606", "EHBK", "EC35"))
        self.assertEqual(couple(read, tracks), [0, None])
        self.assertEqual(read_tracks(io.BytesIO(TRACK_TEXT[:-2])), [])
        self.assertEqual(read_movements(io.BytesIO(MOVEMENT_TEXT)), [])

    def test_lines_off_their_layout(self):
        for text in (b"", b"\r\n", TRACK_TEXT, b"\xef\xbb\xbf" + MOVEMENT_TEXT, MOVEMENT_TEXT.replace(b"\r", b"")):
            self.refused_at(16, 1, read_movements, text)
        for text in (b"", MOVEMENT_TEXT, TRACK_TEXT.upper()):
            self.refused_at(16, 1, read_tracks, text)
        for field, wrong in [
            (b"17", b"017"), (b"17", b""), (b"17", b"12345678"), (b"2026-03-31", b"2026-3-31"),
            (b"23:58:10", b"24:00:00"), (b"23:58:10", b"23:58"), (b",V,", b",v,"), (b",S,", b",C,"), (b"06", b""),
            (b"EHBK", b"EHBKX"), (b"06", b"\xc3\xa9"), (b"B738", b"b738"), (b"2026", "२०२६".encode()),
            (b",\r\n", b"\r\n"), (b",\r\n", b",c\r\n"), (b",\r\n", b",C,\r\n"), (b",\r\n", b",\r\r\n"),
            (b"\r\n", b"\n"), (b"\r\n", b"9" * 100_000),
        ]:
            self.refused_at(16, 3, read_movements, MOVEMENT_TEXT + MOVEMENT_LINE + MOVEMENT_LINE.replace(field, wrong))
        self.refused_at(16, 3, read_movements, MOVEMENT_TEXT + MOVEMENT_LINE + b"\r\n")
        self.refused_at(16, 2, read_tracks, TRACK_TEXT + TRACK_LINE.replace(b"\r\n", b",\r\n"))

    def test_dates_and_rows_too_many(self):
        for date in (b"2026-02-29", b"1899-12-31", b"0000-00-00", b"2100-02-29"):
            self.refused_at(18, 2, read_movements, MOVEMENT_TEXT + MOVEMENT_LINE.replace(b"2026-03-31", date))
        many = TRACK_TEXT + 50_000 * TRACK_LINE
        self.assertEqual(len(read_tracks(io.BytesIO(many))), 50_000)
        self.refused_at(18, 50_002, read_tracks, many + TRACK_LINE)
        self.refused_at(16, 50_002, read_tracks, many + b"x")

    def test_a_file_that_cannot_be_read_on(self):
        class Broken(io.BytesIO):
            def readline(self, size=-1):
                if self.tell() >= len(MOVEMENT_TEXT):
                    raise OSError(5, "Input/output error")
                return super().readline(size)

        with self.assertRaises(Refused) as caught:
            read_movements(Broken(MOVEMENT_TEXT + MOVEMENT_LINE))
        self.assertEqual((caught.exception.number, caught.exception.line), (16, 2))


class Command(Case):
    """python3 -m okubinrafo couple."""

    def setUp(self):
        super().setUp()
        self.write("tracks.csv", TRACK_TEXT + TRACK_LINE)

    def test_an_answer(self):
        circuit = MOVEMENT_LINE.replace(b"17,", b"9,").replace(b",\r", b",C\r")
        self.write("movements.csv", MOVEMENT_TEXT + circuit + MOVEMENT_LINE + MOVEMENT_LINE)
        answer = "id,track\r\n9,\r\n17,4\r\n17,\r\n"
        counts = "movements: 1 of 3 have a track, 1 aeroplane circuits take none, 1 found none; tracks left: 0"
        self.assertEqual(self.runs(0, answer, "couple", "movements.csv"), f"okubinrafo: {counts}\n")
        self.runs(0, "id,track\r\n", "couple", "--tracks", "tracks.csv", input=MOVEMENT_TEXT)

    def test_refusals_name_their_file(self):
        wrong = MOVEMENT_TEXT + MOVEMENT_LINE.replace(b"03-31", b"02-29")
        self.assertIn("standard input, line 2: refused 18: ", self.runs(1, "refused,18,2\r\n", "couple", input=wrong))
        self.assertIn("standard input, line 1: refused 16: ", self.runs(1, "refused,16,1\r\n", "couple"))
        words = ["couple", "nowhere.csv"]
        self.assertIn("nowhere.csv, line 1: refused 16: No such", self.runs(1, "refused,16,1\r\n", *words))
        self.write("tracks.csv", TRACK_TEXT + b"x")
        self.assertIn("tracks.csv, line 2: refused 16: ", self.runs(1, "refused,16,2\r\n", *words))
        os.remove(os.path.join(self.folder, "tracks.csv"))
        self.assertIn("tracks.csv, line 1: refused 16: No such", self.runs(1, "refused,16,1\r\n", *words))

    def test_the_example(self):
        names = [os.path.join(EXAMPLE, name) for name in ("movements.csv", "tracks.csv", "couple.csv")]
        with open(names[2], newline="") as file:
            self.runs(0, file.read(), "couple", names[0], "--tracks", names[1])

    @unittest.skipUnless("OKUBINRAFO_COUPLE" in os.environ, "no program is named to compare with")
    def test_the_proved_programs_very_text(self):
        with open(os.path.join(EXAMPLE, "movements.csv"), "rb") as file:
            movements = file.read()
        with open(os.path.join(EXAMPLE, "tracks.csv"), "rb") as file:
            self.write("tracks.csv", file.read())
        cut, wrong = movements[: len(movements) // 2], movements.replace(b"-02-28,", b"-02-30,")
        for given, status in ((movements, 0), (movements[:-2], 0), (cut, 1), (wrong, 1), (movements + b"\r\n", 1)):
            proved = self.run_in_folder(command=["sh", "-c", os.environ["OKUBINRAFO_COUPLE"]], input=given)
            self.assertEqual(proved.stdout.startswith(b"refused"), status == 1)
            self.runs(status, proved.stdout.decode(), "couple", input=given)


if __name__ == "__main__":
    unittest.main()
