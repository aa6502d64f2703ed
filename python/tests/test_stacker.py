"""What the package promises beside the library's own calls: shapes, refusals, buffers, threads. With numpy where it is installed."""
import array
import os
import tempfile
import threading
import unittest

import stacker

try:
    import numpy
except ImportError:
    numpy = None

WIDTH, HEIGHT, COUNT = 128, 64, 3


def made(count=COUNT, height=HEIGHT, width=WIDTH, seed=1):
    """Frames of a pattern that moves, with some noise, as nested shape over a bytearray."""
    words, state = array.array('H'), seed
    for i in range(count * height * width):
        frame, y, x = i // (height * width), i // width % height + 2 * (i // (height * width)), i % width
        state = (state * 6364136223846793005 + 1442695040888963407) % 2**64
        words.append(400 + (y // 8 * 7 + (x + 4 * frame) // 8 * 13) % 11 * 200 + (state >> 58))
    return memoryview(bytearray(words.tobytes())).cast('H', (count, height, width))


class Calls(unittest.TestCase):
    def test_run_is_align_then_merge(self):
        frames = made()
        done = stacker.run(frames, noise=(3, 100))
        found = stacker.align(frames)
        self.assertEqual(done.vectors, found.vectors)
        self.assertEqual((done.residuals, done.rows), (found.residuals, found.rows))
        self.assertEqual(done.merged, stacker.merge(frames, found.vectors, noise=(3, 100)))
        self.assertEqual(done.merged.shape, (HEIGHT, WIDTH))
        self.assertEqual(done.vectors.shape, (COUNT - 1, HEIGHT // 16 + 1, WIDTH // 16 + 1, 2))

    def test_residuals_add_up(self):
        frames = made()
        for side in 16, 32:
            found = stacker.align(frames, side=side)
            each = stacker.residuals(frames, found.vectors, side=side)
            self.assertEqual(each.shape, (COUNT - 1, HEIGHT // side + 1, WIDTH // side + 1))
            self.assertEqual([sum(sum(row) for row in frame) for frame in each.tolist()], found.residuals)

    def test_range(self):
        frames = made()
        vectors = stacker.align(frames).vectors
        low, high = stacker.merge_range(frames, vectors, lower=(2, 50), upper=(4, 200))
        self.assertNotEqual(low, high)
        for noise in (2, 50), (4, 50), (3, 100), (2, 200), (4, 200):
            rows = zip(low.tolist(), stacker.merge(frames, vectors, noise=noise).tolist(), high.tolist())
            self.assertTrue(all(a <= b <= c for row in rows for a, b, c in zip(*row)))
        merged = stacker.merge(frames, vectors, noise=(2, 16))
        self.assertEqual(stacker.merge_range(frames, vectors, lower=(2, 16), upper=(2, 16)), (merged, merged))
        self.assertEqual(stacker.merge_range(frames, vectors, lower=(1, 4), upper=(2, 16), iso=(200, 100)), (merged, merged))

    def test_lone_frame_comes_back(self):
        frames = made(1)
        done = stacker.run(frames, noise=(3, 100))
        self.assertEqual(done.merged.tolist(), frames.tolist()[0])
        self.assertEqual(done.residuals, [])

    def test_iso_scales_the_curve(self):
        frames = made()
        self.assertEqual(stacker.run(frames, noise=(1, 4), iso=200).merged, stacker.run(frames, noise=(2, 16)).merged)

    def test_tuning(self):
        frames = made()
        plain = stacker.run(frames, noise=(3, 100)).merged
        self.assertEqual(stacker.run(frames, noise=(3, 100), strength=0).merged.tolist(), frames.tolist()[0])
        self.assertNotEqual(stacker.run(frames, noise=(3, 100), spatial=64).merged, plain)

    def test_side(self):
        frames = made()
        done, found = stacker.run(frames, noise=(3, 100), side=32), stacker.align(frames, side=32)
        self.assertEqual(done.vectors.shape, (COUNT - 1, HEIGHT // 32 + 1, WIDTH // 32 + 1, 2))
        self.assertEqual((done.vectors, done.residuals, done.rows), found)
        self.assertEqual(done.merged, stacker.merge(frames, found.vectors, noise=(3, 100), side=32))
        self.assertNotEqual(done.merged, stacker.run(frames, noise=(3, 100)).merged)

    def test_sharpest(self):
        frames = made()
        done = stacker.run(frames, noise=(3, 100), reference='sharpest')
        self.assertEqual(done.merged, stacker.run(frames, noise=(3, 100), reference=done.reference).merged)

    def test_spare_words(self):
        plain, padded = made(), memoryview(bytearray(b'\xff' * (2 * COUNT * HEIGHT * (WIDTH + 8)))).cast('H')
        rows = plain.tolist()
        for frame in range(COUNT):
            for y in range(HEIGHT):
                start = (frame * HEIGHT + y) * (WIDTH + 8)
                padded[start:start + WIDTH] = array.array('H', rows[frame][y])
        wide = padded.cast('B').cast('H', (COUNT, HEIGHT, WIDTH + 8))
        self.assertEqual(stacker.run(wide, noise=(3, 100), width=WIDTH).merged, stacker.run(plain, noise=(3, 100)).merged)

    def test_read_only(self):
        frames = made()
        self.assertEqual(stacker.run(frames.toreadonly(), noise=(3, 100)).merged, stacker.run(frames, noise=(3, 100)).merged)

    def test_noise_number(self):
        self.assertEqual(stacker.noise_number(1, 0, 1600, 8), 819200)  # the scope paper's M4
        self.assertEqual(stacker.noise_number(1, 0, 3200, 8, side=32), 204800)  # the same level: floor(8 * 1024 * 3200 / 128)
        self.assertEqual(stacker.noise_number(1, 0, 1600, 8, side=17), 0)


class Refusals(unittest.TestCase):
    def refused(self, number, call, *told, **named):
        with self.assertRaises(stacker.Refused) as caught:
            call(*told, **named)
        self.assertEqual(caught.exception.number, number)
        self.assertIn(stacker.REFUSALS[number], str(caught.exception))

    def test_numbers(self):
        frames, far = made(), made()
        far[0, 0, 0] = 4096
        self.refused(1, stacker.run, made(width=96), noise=(3, 100))
        self.refused(2, stacker.run, made(9, 64, 64), noise=(3, 100))
        self.refused(3, stacker.run, frames, noise=(3, 100), reference=COUNT)
        self.refused(8, stacker.run, frames, noise=(-1, 100))
        self.refused(9, stacker.run, frames, noise=(65, 100))
        self.refused(10, stacker.run, frames, noise=(3, 100), strength=1025)
        self.refused(11, stacker.align, far)
        self.refused(18, stacker.run, frames, noise=(3, 100), black=(256, 0, 0, 0))
        self.refused(22, stacker.align, frames, side=17)
        self.refused(22, stacker.run, frames, noise=(3, 100), side=0)
        self.refused(23, stacker.align, frames, width=WIDTH + 64)
        self.refused(24, stacker.run, frames, noise=(3, 100), spatial=257)
        self.refused(25, stacker.run, frames, noise=(3, 100), side=32, spatial=1)
        self.refused(5, stacker.merge, frames, array.array('i', [0]), noise=(3, 100))
        far_vectors = memoryview(bytearray(stacker.align(frames).vectors)).cast('i')
        far_vectors[0] = 173
        self.refused(12, stacker.merge, frames, far_vectors, noise=(3, 100))
        self.refused(26, stacker.merge_range, frames, stacker.align(frames).vectors, lower=(3, 100), upper=(4, 99))
        self.refused(5, stacker.merge_range, frames, stacker.align(frames, side=32).vectors, lower=(3, 100), upper=(3, 100))

    def test_types(self):
        for wrong in (b'', array.array('H', [1, 2]), memoryview(bytearray(8)).cast('I', (1, 1, 2))):
            with self.assertRaises(TypeError):
                stacker.align(wrong)


class Files(unittest.TestCase):
    def setUp(self):
        folder = tempfile.TemporaryDirectory()
        self.addCleanup(folder.cleanup)
        self.path = os.path.join(folder.name, 'file')

    def write(self, data):
        with open(self.path, 'wb') as file:
            file.write(data)

    def test_pgm_there_and_back(self):
        merged = stacker.run(made(), noise=(3, 100)).merged
        stacker.write_pgm(self.path, merged)
        self.assertEqual(stacker.read_pgm(self.path), merged)

    def test_damaged(self):
        for data, reader, number in ((b'', stacker.read_pgm, 17), (b'P5\n64 64\n65535\n', stacker.read_pgm, 17), (b'', stacker.read_dng, 19),
                                     (b'II*\0\xff\xff\xff\xff', stacker.read_dng, 19), (b'II*\0\x08\0\0\0\0\0', stacker.read_dng, 20),
                                     (b'', stacker.read_burst, 15), (b'width\n', stacker.read_burst, 13)):
            self.write(data)
            with self.assertRaises(stacker.Refused) as caught:
                reader(self.path)
            self.assertEqual(caught.exception.number, number)
        self.assertEqual(stacker.REFUSALS[11], 'a sample above 4095')

    def test_tag_at_fault(self):
        self.write(b'II*\0\x08\0\0\0\0\0')  # a directory without entries
        with self.assertRaises(stacker.Refused) as caught:
            stacker.read_dng(self.path)
        self.assertEqual((caught.exception.number, caught.exception.tag), (20, 256))

    def test_burst_file(self):
        rows = made(2, 64, 64).tolist()
        text = 'width height count reference shot read strength\n64 64 2 1 3072 102400 600\n'
        text += ''.join(' '.join(map(str, row)) + '\n' for frame in rows for row in frame)
        self.write(text.encode())
        burst = stacker.read_burst(self.path)
        self.assertEqual((burst.reference, burst.noise, burst.strength), (1, (3.0, 100.0), 600))
        self.assertEqual(burst.frames.tolist(), rows)


class Threads(unittest.TestCase):
    def test_at_once(self):
        frames, merged = [made(seed=seed) for seed in range(4)], [None] * 4
        def work(i):
            merged[i] = stacker.run(frames[i], noise=(3, 100)).merged
        threads = [threading.Thread(target=work, args=(i,)) for i in range(4)]
        for thread in threads:
            thread.start()
        for thread in threads:
            thread.join()
        self.assertEqual(merged, [stacker.run(frame, noise=(3, 100)).merged for frame in frames])


@unittest.skipUnless(numpy, 'numpy is not installed')
class Numpy(unittest.TestCase):
    def test_arrays(self):
        frames = numpy.asarray(made())
        done = stacker.run(frames, noise=(3, 100))
        merged = numpy.asarray(done.merged)
        self.assertEqual((merged.shape, merged.dtype), ((HEIGHT, WIDTH), numpy.uint16))
        self.assertEqual(numpy.asarray(done.vectors).dtype, numpy.int32)
        self.assertTrue(numpy.array_equal(stacker.merge(frames, numpy.asarray(done.vectors), noise=(3, 100)), merged))

    def test_what_is_not_taken(self):
        frames = numpy.asarray(made())
        for wrong in (frames.astype(numpy.int32), frames.astype(float), frames[:, ::2], frames[0]):
            with self.assertRaises(TypeError):
                stacker.run(wrong, noise=(3, 100))


if __name__ == '__main__':
    unittest.main()
