# overlay.py FOLDER OPERATION: numpy's overlay of the rasters first.raw and second.raw to result.raw. Prints the best milliseconds of
# three, of the operation alone.
import sys
import time

import numpy

folder, operation = sys.argv[1:]
a, b = (numpy.fromfile(f"{folder}/{name}.raw", numpy.uint8) for name in ("first", "second"))
white = numpy.uint8(0)
overlay = {
    "intersection": lambda: numpy.where(a == 0, white, b),
    "union": lambda: numpy.where(a == 0, b, a),
    "difference": lambda: numpy.where(b == 0, a, white),
}[operation]
best = None
for _ in range(3):
    start = time.perf_counter()
    result = overlay()
    taken = (time.perf_counter() - start) * 1000
    best = taken if best is None else min(best, taken)
result.tofile(f"{folder}/result.raw")
print(best)
