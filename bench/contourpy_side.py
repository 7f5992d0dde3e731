"""Times the library's contours and contourpy's side by side on the same networks.

Prints lines of the benchmark's table.

contourpy_side.py FOLDER: a folder with the networks smooth, noisy and checkerboard, 256 by 256 levels in thousandths of
a dB, one a line.
"""

import ctypes
import os
import sys
import time

SIDE, LEVEL, GOAL, TURNS = 256, 50_000, 0.25, 40


def least_times(own, other):
    """The least seconds of processor time of each, run in turns."""
    least = [float("inf")] * 2
    for _ in range(TURNS):
        for i, run in enumerate((own, other)):
            start = time.thread_time()
            run()
            least[i] = min(least[i], time.thread_time() - start)
    return least


def library_run(levels):
    """A call of the library on room that is lent once, as contourpy's arrays are."""
    lent, sizes = (ctypes.c_uint32 * len(levels))(*levels), (ctypes.c_uint32 * 2)()
    edges, counts, closed = ((ctypes.c_uint32 * (2 * len(levels)))() for _ in range(3))
    frame = [ctypes.c_uint32(number) for number in (SIDE, SIDE, 100, 0, 0, LEVEL)]
    slices = [part for room in (edges, counts, closed, sizes) for part in (room, ctypes.c_size_t(len(room)))]
    function = ctypes.CDLL(os.environ["OKUBINRAFO_LIB"]).okubinrafo_contours
    size = ctypes.c_size_t(len(levels))

    def run():
        assert function(lent, size, *frame, *slices) == 0

    return run


def main(folder):
    try:
        import contourpy
        import numpy
    except ImportError:
        print("| contours against contourpy | – | contourpy isn't installed | – | not measured |")
        return
    for name in ("smooth", "noisy", "checkerboard"):
        with open(os.path.join(folder, name), encoding="ascii") as file:
            levels = [int(line) for line in file]
        z = numpy.array(levels, dtype=numpy.float64).reshape(SIDE, SIDE)

        def other():
            contourpy.contour_generator(z=z, name="serial").lines(LEVEL)

        own_time, other_time = least_times(library_run(levels), other)
        ratio = own_time / other_time
        met = "met" if ratio <= GOAL else "MISSED"
        times = f"{own_time * 1e6:.1f} µs | contourpy {contourpy.__version__} {other_time * 1e6:.1f} µs"
        print(f"| contours, {name}, 256 by 256 | {times} | {ratio:.2f} | ≤ {GOAL}: {met} |")


main(sys.argv[1])
