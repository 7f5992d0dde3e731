"""The lines of docs/GIS.md run as they stand there, with GDAL's own programs where they are installed."""

import json
import os
import shutil
import subprocess
import unittest

from okubinrafo import Refused, read_network
from test_documents import TOP, blocks, folder_with_examples, run_python, run_sh


def block(language, word):
    """The one block of docs/GIS.md in this language that has this word."""
    (found,) = (text for kind, text in blocks("GIS.md") if kind == language and word in text)
    return found


def output(*command):
    return subprocess.run(command, check=True, capture_output=True, timeout=60).stdout.decode()


def read(name):
    with open(name, "rb") as file:
        return file.read()


class Grids(unittest.TestCase):
    """The Python of the document, over a text as GDAL writes it."""

    HEAD = "ncols        2\nnrows        2\nxllcorner    950.0\nyllcorner    1950.0\ncellsize     100.0\n"

    def converted(self, grid):
        with folder_with_examples():
            with open("levels.asc", "w") as file:
                file.write(grid)
            run_python(block("python", "network.asc"), {})
            return read("network.asc")

    def test_a_grid_of_gdal(self):
        network = read_network(self.converted(self.HEAD + "NODATA_value  -9999\n 40.00 50.004\n 0.1264 60\n"))
        self.assertEqual(list(network.levels), [126, 60_000, 40_000, 50_004])
        self.assertEqual((network.spacing, network.west, network.south), (100, 1000, 2000))

    def test_a_point_without_data(self):
        with self.assertRaises(Refused) as caught:
            read_network(self.converted(self.HEAD + "NODATA_value  -3.4e+38\n 40.00 -3.4e+38\n 1.00 2.00\n"))
        self.assertEqual(caught.exception.number, 13)

    def test_half_metres(self):
        with self.assertRaisesRegex(AssertionError, "whole number of metres"):
            self.converted(self.HEAD.replace("950.0", "950.5") + " 1.00 2.00\n 1.00 2.00\n")


@unittest.skipUnless(shutil.which("ogr2ogr") and shutil.which("gdal_translate"), "gdal-bin is not installed")
class Gdal(unittest.TestCase):
    def test_contours_as_a_layer(self):
        with folder_with_examples():
            network = read_network(read("network.asc"))
            levels = (48_000, 56_125)
            lines = [f"{level / 1000:.3f};{network.print_contours(level)}\r\n" for level in levels]
            with open("contours.csv", "w", newline="") as file:
                file.write("level;wkt\r\n" + "".join(lines))
            run_sh(block("sh", "ogr2ogr"))
            summary = output("ogrinfo", "-so", "contours.gpkg", "contours")
            self.assertIn("level: Real", summary)
            self.assertIn("Feature Count: 2", summary)
            self.assertIn('"EPSG",28992', summary)
            self.assertNotIn("wkt:", summary)
            drawn = json.loads(output("ogr2ogr", "-f", "GeoJSON", "/vsistdout/", "contours.gpkg"))
            self.assertEqual([feature["properties"]["level"] for feature in drawn["features"]], [48.0, 56.125])
            for feature, level in zip(drawn["features"], levels):
                found = [len(line) for line in feature["geometry"]["coordinates"]]
                self.assertEqual(found, [len(line) for line in network.lines(level)])

    def test_a_grid_there_and_back(self):
        ours = read(os.path.join(TOP, "examples", "network.asc"))
        with folder_with_examples():
            output("gdal_translate", "-q", "-a_srs", "EPSG:28992", "network.asc", "levels.tif")
            os.remove("network.asc")
            run_sh(block("sh", "gdal_translate"))
            with self.assertRaises(Refused) as caught:
                read_network(read("levels.asc"))
            self.assertEqual(caught.exception.number, 17)
            run_python(block("python", "network.asc"), {})
            self.assertEqual(read("network.asc"), ours)


if __name__ == "__main__":
    unittest.main()
