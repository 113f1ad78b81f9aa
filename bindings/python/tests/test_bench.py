"""What test benches ask of the program. AVCDEC_PROGRAM names it, else it is that of the repository; without one these are left out."""

import os
import pathlib
import unittest

import avcdec

TOP = pathlib.Path(__file__).resolve().parents[3]
PROGRAM = pathlib.Path(os.environ.get("AVCDEC_PROGRAM", TOP / "crates/avc_cli/out/avc_cli"))
# ten pictures of 150x90 samples of 10 by 6 macroblocks
STREAM = pathlib.Path(os.environ.get("AVCDEC_VECTORS", TOP / "vectors")) / "encoder" / "pub_o_crop_150x90.264"
PLACE, SIZE = 41 * 150 + 77, 150 * 90 * 3 // 2


@unittest.skipUnless(PROGRAM.exists(), f"no program {PROGRAM}")
class Benches(unittest.TestCase):
    def pictures(self) -> list[bytearray]:
        pictures = [bytearray(event.i420) for event in avcdec.decode(STREAM) if isinstance(event, avcdec.Picture)]
        self.assertEqual([len(picture) for picture in pictures], [SIZE] * 10)
        return pictures

    def test_pictures_are_the_same(self) -> None:
        pictures = self.pictures()
        found = avcdec.compare(STREAM, pictures, program=PROGRAM)
        self.assertEqual((found.same, found.told, found.refused, found.picture), (True, "", "", None))
        found = avcdec.compare(STREAM.read_bytes(), b"".join(pictures), psnr=True, program=PROGRAM)
        self.assertEqual((found.same, found.psnr), (True, [(float("inf"),) * 3] * 10))

    def test_a_sample_differs(self) -> None:
        pictures = self.pictures()
        ours = pictures[3][PLACE]
        pictures[3][PLACE] = theirs = ours + 5 if ours < 251 else ours - 5
        found = avcdec.compare(STREAM, pictures, psnr=True, program=PROGRAM)
        self.assertEqual(
            (found.same, found.picture, found.macroblock, found.component, found.column, found.row, found.ours, found.theirs),
            (False, 3, 24, "luma", 77, 41, ours, theirs),
        )
        # 10 log10(255 * 255 * 150 * 90 / 25)
        self.assertEqual(found.psnr[3], (75.45, float("inf"), float("inf")))
        self.assertTrue(avcdec.compare(STREAM, pictures, max_diff=5, program=PROGRAM).same)

    def test_arrays_are_pictures(self) -> None:
        try:
            import numpy
        except ImportError:
            self.skipTest("no numpy")
        arrays = [numpy.frombuffer(bytes(picture), dtype=numpy.uint8).reshape(135, 150) for picture in self.pictures()]
        self.assertTrue(avcdec.compare(STREAM, arrays, program=PROGRAM).same)

    def test_macroblocks_are_told(self) -> None:
        told = list(avcdec.macroblocks(STREAM, program=PROGRAM))
        self.assertEqual([one["mbAddr"] for one in told], list(range(60)) * 10)
        self.assertTrue(all(one["mb_type"].startswith("I_") for one in told[:60]))
        one = list(avcdec.macroblocks(STREAM.read_bytes(), picture=2, coefficients=True, program=PROGRAM))
        self.assertEqual([here["mbAddr"] for here in one], list(range(60)))
        self.assertTrue(all("coeffLevel" in here for here in one))
        self.assertEqual([here["mb_type"] for here in one], [here["mb_type"] for here in told[120:180]])


if __name__ == "__main__":
    unittest.main()
