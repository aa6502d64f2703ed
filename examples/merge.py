#!/usr/bin/env python3
"""DNG files are merged from Python: merge.py OUTPUT.pgm FILE.dng... Prints, for each other frame, its most frequent vector. Needs no numpy."""
import collections
import sys

import stacker


def main(output, paths):
    files = [stacker.read_dng(path) for path in paths]
    height, width = files[0].samples.shape
    frames = memoryview(bytearray().join(bytes(file.samples) for file in files)).cast('B').cast('H', (len(files), height, width))
    done = stacker.run(frames, noise=files[0].noise, black=files[0].black, reference='sharpest')
    stacker.write_pgm(output, done.merged)
    print('merged on frame %d' % done.reference)
    others = (frame for frame in range(len(files)) if frame != done.reference)
    for frame, field, residual in zip(others, done.vectors.tolist(), done.residuals):
        (down, right), tiles = collections.Counter(tuple(vector) for row in field for vector in row).most_common(1)[0]
        print('frame %d: %+d down %+d right in %d tiles; residual %d' % (frame, down, right, tiles, residual))


if __name__ == '__main__':
    if len(sys.argv) < 3:
        sys.exit(__doc__)
    try:
        main(sys.argv[1], sys.argv[2:])
    except stacker.Refused as refusal:
        sys.exit(str(refusal))
