"""Streams with what must come out. AVCDEC_VECTORS is the folder of streams, else that of the repository."""

import contextlib
import hashlib
import importlib.util
import io
import os
import pathlib
import random
import re
import tempfile
import textwrap
import tracemalloc
import unittest

import avcdec

VECTORS = pathlib.Path(os.environ.get("AVCDEC_VECTORS", pathlib.Path(__file__).parents[3] / "vectors"))

SETS = bytes.fromhex("0000000167 42C00ADA71 0000000168CE3880")
GREY = SETS + bytes.fromhex("00000165888493C0")


# the RBSP of an I slice of two macroblocks, 58 bits and the stop bit
TWO_MACROBLOCKS = bytes.fromhex("8884939314000960")


def cut(rbsp: bytes, count: int) -> bytes:
    """The first bits, and a stop bit behind them (7.3.2.11)."""
    bits = "".join(f"{byte:08b}" for byte in rbsp)[:count] + "1"
    bits += "0" * (-len(bits) % 8)
    return bytes(int(bits[at : at + 8], 2) for at in range(0, len(bits), 8))


def escaped(rbsp: bytes) -> bytes:
    """With emulation_prevention_three_byte (7.4.1)."""
    out = bytearray()
    for byte in rbsp:
        if byte <= 3 and out[-2:] == b"\0\0":
            out.append(3)
        out.append(byte)
    return bytes(out)


def expected(stream: pathlib.Path, kind: str) -> str:
    path = stream.with_suffix(kind)
    return path.read_text() if path.exists() else ""


class Streams(unittest.TestCase):
    def test_pictures_and_refusals_are_those_expected(self) -> None:
        streams = sorted((VECTORS / "cases").glob("*.264"))
        self.assertGreater(len(streams), 50)
        for stream in streams:
            with self.subTest(stream.name):
                samples, refusals = hashlib.md5(), ""
                for event in avcdec.decode(stream):
                    if isinstance(event, avcdec.Picture):
                        samples.update(event.i420)
                    else:
                        refusals += f"{event}\n"
                self.assertEqual(samples.hexdigest(), expected(stream, ".md5").split()[0])
                self.assertEqual(refusals, expected(stream, ".refused"))

    def test_lent_pictures_are_those_that_are_copied(self) -> None:
        for name in ["gap", "held_before_refusal"]:
            data = (VECTORS / "cases" / f"{name}.264").read_bytes()
            kept = list(avcdec.decode(data))
            self.assertEqual([event.copy() if isinstance(event, avcdec.Picture) else event for event in avcdec.decode(data, lend=True)], kept)
            for event, lent in zip(kept, avcdec.decode(data, lend=True)):
                self.assertEqual(lent, event)
                if isinstance(event, avcdec.Picture):
                    self.assertEqual(lent.planes, event.planes)

    def test_cuttings_are_alike(self) -> None:
        chance = random.Random(5)
        data = (VECTORS / "cases" / "gap.264").read_bytes()
        whole = list(avcdec.decode(data))
        for _ in range(20):
            cuts = sorted(chance.randrange(len(data) + 1) for _ in range(9))
            pieces = [data[a:b] for a, b in zip([0] + cuts, cuts + [len(data)])]
            self.assertEqual(list(avcdec.decode(pieces)), whole)
        self.assertEqual(list(avcdec.decode(io.BytesIO(data))), whole)
        self.assertEqual(list(avcdec.decode(str(VECTORS / "cases" / "gap.264"))), whole)


def example(text: str, words: str) -> str:
    """The program, which is indented in a text, in which these words stand."""
    (found,) = [block for block in re.findall(r"^(?:    .*\n)+", text, re.MULTILINE) if words in block]
    return textwrap.dedent(found)


class Examples(unittest.TestCase):
    """The examples in the documents, as they stand there, give all events."""

    readme = (pathlib.Path(__file__).parents[1] / "README.md").read_text(encoding="utf-8")

    def told(self, program: str) -> str:
        """What a program prints that decodes in.264, a stream with held pictures and a refusal."""
        told, before = io.StringIO(), os.getcwd()
        with tempfile.TemporaryDirectory() as folder, contextlib.redirect_stdout(told):
            os.chdir(folder)
            try:
                pathlib.Path("in.264").write_bytes((VECTORS / "cases" / "held_before_refusal.264").read_bytes())
                exec(program, {})
            finally:
                os.chdir(before)
        return told.getvalue()

    def test_that_of_the_package(self) -> None:
        lines = self.told(example(avcdec.__doc__ or "", 'decode("in.264")')).splitlines()
        events = list(avcdec.decode(VECTORS / "cases" / "held_before_refusal.264"))
        self.assertEqual(
            lines,
            [f"16 16 {bytes(event.luma.row(0))[:8].hex()}" if isinstance(event, avcdec.Picture) else str(event) for event in events],
        )
        self.assertEqual(sum(line.startswith("refused") for line in lines), 1)

    @unittest.skipUnless(importlib.util.find_spec("numpy"), "numpy is not installed")
    def test_that_of_a_test_bench(self) -> None:
        lines = self.told(example(self.readme, 'decode("in.264")')).splitlines()
        self.assertEqual(len(lines), len(list(avcdec.decode(VECTORS / "cases" / "held_before_refusal.264"))))

    def test_that_of_a_call(self) -> None:
        # a stream without refusals and without max_num_reorder_frames, so that pictures are held to the end
        data = (VECTORS / "cases" / "order_type_0_twice.264").read_bytes()
        places = [0, 26, 34, 42, 50, 58, len(data)]
        shown: list[avcdec.Event] = []
        packets = [data[begin:end] for begin, end in zip(places, places[1:])]
        words = {"avcdec": avcdec, "packets": packets, "show": lambda event: shown.append(event.copy())}
        exec(example(self.readme, "for packet in packets"), words)
        self.assertEqual(shown, list(avcdec.decode(data)))


class Calls(unittest.TestCase):
    def test_a_picture_has_planes_and_rows(self) -> None:
        (picture,) = avcdec.decode(GREY)
        self.assertEqual((picture.width, picture.height, picture.coded_size), (16, 16, (16, 16)))
        self.assertEqual([(p.width, p.height) for p in picture.planes], [(16, 16), (8, 8), (8, 8)])
        self.assertEqual([bytes(row) for row in picture.cr.rows()], [bytes([128] * 8)] * 8)
        with self.assertRaises(IndexError):
            picture.luma.row(16)

    @unittest.skipUnless(importlib.util.find_spec("numpy"), "numpy is not installed")
    def test_a_plane_is_an_array(self) -> None:
        (picture,) = avcdec.decode(GREY)
        self.assertEqual(picture.cb.array().shape, (8, 8))
        self.assertTrue((picture.luma.array() == 128).all())

    def test_lent_rows_are_taken_back(self) -> None:
        with avcdec.Decoder() as decoder:
            decoder.feed(GREY)
            decoder.flush()
            picture = decoder.take(lend=True)
            row, kept = picture.cr.row(7), picture.copy()
            self.assertEqual((bytes(row), picture.luma.stride >= 16), (bytes([128] * 8), True))
            part = row[2:]
            with self.assertRaises(BufferError):
                decoder.take()
            del part
            self.assertIsNone(decoder.take())
            for late in [lambda: row[0], lambda: picture.luma.row(0), lambda: picture.i420]:
                with self.assertRaises(ValueError):
                    late()
            self.assertEqual(kept.i420, bytes([128] * 384))

    @unittest.skipUnless(importlib.util.find_spec("numpy"), "numpy is not installed")
    def test_no_array_outlives_its_rows(self) -> None:
        decoder = avcdec.Decoder()
        decoder.feed(GREY)
        decoder.flush()
        array = decoder.take(lend=True).luma.array()
        self.assertEqual((array.shape, array.flags.writeable, int(array[15, 15])), ((16, 16), False, 128))
        for call in [decoder.take, decoder.reset, decoder.close]:
            with self.assertRaises(BufferError):
                call()
        del array
        decoder.close()

    def test_only_bytes_are_fed(self) -> None:
        with avcdec.Decoder() as decoder:
            for wrong in [5, "text", None, [0, 0, 1]]:
                with self.assertRaises(TypeError):
                    decoder.feed(wrong)
                with self.assertRaises(TypeError):
                    decoder.feed_unit(wrong)
            decoder.feed(bytearray(GREY))
            decoder.flush()
            self.assertIsInstance(decoder.take(), avcdec.Picture)

    def test_feeding_stops_where_a_unit_has_ended(self) -> None:
        with avcdec.Decoder() as decoder:
            used = decoder.feed_unit(GREY)
            self.assertTrue(0 < used < len(GREY))
            while used < len(GREY):
                used += decoder.feed_unit(memoryview(GREY), used)
            self.assertEqual(decoder.feed_unit(GREY, len(GREY)), 0)
            decoder.flush()
            self.assertEqual([(p.width, p.height) for p in decoder.events()], [(16, 16)])
            with self.assertRaises(avcdec.Ended):
                decoder.feed_unit(GREY)

    def test_a_refusal_is_told_as_by_the_program(self) -> None:
        (refusal,) = avcdec.decode(bytes.fromhex("000001E742"))
        self.assertEqual((refusal.unit, refusal.fault, refusal.name), (0, 4, "ForbiddenBit"))
        self.assertEqual(str(refusal), "refused unit 0: 4 ForbiddenBit")

    def test_nothing_is_fed_after_the_end(self) -> None:
        with avcdec.Decoder(early=True) as decoder:
            decoder.feed(GREY)
            self.assertIsNone(decoder.take())
            decoder.end_access_unit()
            decoder.flush()
            self.assertIsInstance(decoder.take(), avcdec.Picture)
            self.assertEqual(decoder.turns, 1)
            with self.assertRaises(avcdec.Ended):
                decoder.feed(b"")
            decoder.reset()
            self.assertEqual(decoder.turns, 0)
            decoder.feed(b"")
        for call in [lambda: decoder.feed(b""), lambda: decoder.feed_unit(b""), decoder.take, decoder.flush, decoder.reset]:
            with self.assertRaisesRegex(avcdec.Closed, "^the decoder is closed$"):
                call()

    def test_a_picture_waits_until_its_place_is_wanted(self) -> None:
        one_frame_held = bytes.fromhex("000000016742C00ADA7201FD40 0000000168CE3880 00000165888493C0")
        with avcdec.Decoder() as decoder:
            decoder.feed(one_frame_held + bytes.fromhex("000001419A22A0"))
            self.assertIsNone(decoder.take())
            decoder.feed(bytes.fromhex("00000109000001"))
            self.assertIsInstance(decoder.take(), avcdec.Picture)
            self.assertIsNone(decoder.take())
            decoder.flush()
            self.assertIsInstance(decoder.take(), avcdec.Picture)
            self.assertIsNone(decoder.take())

    def test_a_slice_at_a_wrong_address_is_not_decoded(self) -> None:
        two_slices = bytes.fromhex("000000016742C00ADA2C40 0000000168CE3880 00000165888493C0 00000165422124F0")
        with avcdec.Decoder() as decoder:
            decoder.feed(two_slices + bytes.fromhex("00000165422124F0"))
            decoder.flush()
            self.assertEqual(str(decoder.take()), "refused unit 4: 21 ArbitrarySliceOrder")
            self.assertIsNone(decoder.take())
            self.assertEqual(decoder.turns, 2)

    def test_a_slice_cut_to_each_number_of_its_bits(self) -> None:
        sets = bytes.fromhex("000000016742C00ADA2C40 0000000168CE3880")
        filtered = bytes([128] * 15 + [130, 134] + [136] * 15) * 16
        for count in range(59):
            with self.subTest(count):
                events = list(avcdec.decode(sets + bytes.fromhex("00000165") + escaped(cut(TWO_MACROBLOCKS, count))))
                if count == 0:
                    self.assertEqual(events, [])
                elif count == 58:
                    (picture,) = events
                    self.assertEqual(picture.i420, filtered + bytes([128] * 256))
                else:
                    told = "22 MissingMacroblocks" if count == 25 else "1 Truncated"
                    self.assertEqual([str(event) for event in events], [f"refused unit 2: {told}"])

    def test_access_units_are_those_of_another_parser(self) -> None:
        # by libavcodec's parser
        lines = (pathlib.Path(__file__).parents[2] / "c" / "tests" / "marks.txt").read_text().splitlines()
        self.assertGreater(len(lines), 5)
        for line in lines:
            name, places, _ = line.split("|")
            with self.subTest(name):
                data = (VECTORS / f"{name}.264").read_bytes()
                units = list(avcdec.access_units(data))
                ends = [sum(map(len, units[:count])) for count in range(len(units))]
                self.assertEqual((ends, b"".join(units)), ([int(place) for place in places.split()], data))
        self.assertEqual(list(avcdec.access_units(b"")), [])

    def test_values_come_back_with_their_pictures(self) -> None:
        # where libavcodec's parser cuts the stream, which packet each picture is of by its decoder, and what its trace of the headers tells:
        # unit, nal_unit_type 5, frame_num, PicOrderCnt (type 0)
        places = [0, 26, 34, 42, 50, 58]
        wanted = [(0, 2, True, 0, 0), (34, 4, False, 2, 2), (26, 3, False, 1, 4), (42, 5, True, 0, 0), (58, 7, False, 2, 2), (50, 6, False, 1, 4)]
        data = (VECTORS / "cases" / "order_type_0_twice.264").read_bytes()
        for lend in [False, True]:
            told = []
            with avcdec.Decoder() as decoder:
                for begin, end in zip(places, places[1:] + [len(data)]):
                    decoder.mark(begin)
                    for event in decoder.decode(data[begin:end], lend):
                        told.append((event.value, *event.info[:4]))
                decoder.flush()
                told += [(event.value, *event.copy().info[:4]) for event in decoder.events(lend)]
            self.assertEqual(told, wanted)

    def test_a_value_that_never_comes_is_told_behind_the_next_idr_picture(self) -> None:
        data = (VECTORS / "cases" / "order_type_0_twice.264").read_bytes()
        # the parameter sets are a packet of their own
        places = [0, 18, 26, 34, 42]
        with avcdec.Decoder() as decoder:
            for begin, end in zip(places, places[1:] + [len(data)]):
                decoder.mark(begin)
                decoder.feed(data[begin:end])
            decoder.flush()
            self.assertIsNone(decoder.take_dropped())
            first = decoder.take()
            self.assertEqual(first and first.value, 18)
            self.assertEqual([decoder.take_dropped(), decoder.take_dropped()], [0, None])
            self.assertEqual([event.value for event in decoder.events()], [34, 26, 42, 42, 42])
            self.assertEqual([decoder.take_dropped()], [None])
        with self.assertRaises(avcdec.Closed):
            decoder.take_dropped()

    def test_a_refusal_has_the_value_of_its_unit(self) -> None:
        with avcdec.Decoder() as decoder:
            decoder.feed(bytes.fromhex("000001E7"))
            decoder.mark(2**64 - 1)
            decoder.feed(bytes.fromhex("42000001E842"))
            decoder.flush()
            self.assertEqual(list(decoder.events()), [avcdec.Refusal(0, 4), avcdec.Refusal(1, 4, 2**64 - 1)])
            decoder.reset()
            decoder.feed(bytes.fromhex("000001E742"))
            decoder.flush()
            self.assertEqual(decoder.take(), avcdec.Refusal(0, 4))
            for value in [-1, 2**64]:
                with self.assertRaises(OverflowError):
                    decoder.mark(value)
        with self.assertRaises(avcdec.Closed):
            decoder.mark(0)

    def test_the_info_has_what_the_stream_says_of_showing(self) -> None:
        # by libavcodec's trace of the headers; aspect_ratio_idc is 14, which is 4 to 3 (Table E-1)
        with_vui = next(avcdec.decode(VECTORS / "encoder" / "pub_x_hrd_vui.264"))
        self.assertEqual(with_vui.info[4:], (4, 3, True, 1, 1, 1, 2, 1, 50, 0))
        # each parameter with a number of its own
        vui = bytes.fromhex("0000000167 42C00ADA73FF002100236E080A0D21200000 0300E000000B41E1108A50")
        (whole,) = avcdec.decode(vui + bytes.fromhex("0000000168CE3880 00000165888493C0"))
        self.assertEqual(whole.info, avcdec.PictureInfo(2, True, 0, 0, 33, 35, True, 4, 5, 6, 3, 7, 90, 1))
        (without,) = avcdec.decode(GREY)
        self.assertEqual(without.info, avcdec.PictureInfo(2, True, 0, 0, 0, 0, False, 2, 2, 2, 0, 0, 0, None))

    def test_a_picture_is_shown_short(self) -> None:
        (picture,) = avcdec.decode(GREY)
        self.assertEqual((repr(picture), repr(picture.cb)), ("Picture(16x16)", "Plane(8x8)"))

    def test_a_picture_is_copied_once(self) -> None:
        large = VECTORS / "large" / "pub_l_16000x64.264"
        with avcdec.Decoder() as decoder:
            decoder.feed(large.read_bytes())
            decoder.flush()
            size = 16000 * 64 * 3 // 2
            for lend, most in [(False, size + 20_000), (True, 20_000)]:
                tracemalloc.start()
                picture = decoder.take(lend)
                self.assertLess(tracemalloc.get_traced_memory()[1], most)
                tracemalloc.stop()
                self.assertEqual((picture.width, picture.height), (16000, 64))
            self.assertEqual(picture.copy().i420, picture.i420)

    def test_the_version_is_that_of_the_header(self) -> None:
        self.assertEqual(avcdec.version(), (0, 2, 0))
        self.assertEqual(avcdec.__version__, "0.2.0")


if __name__ == "__main__":
    unittest.main()
