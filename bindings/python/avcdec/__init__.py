"""A proved decoder for H.264 (Rec. ITU-T H.264), Constrained Baseline profile.

    import avcdec
    for event in avcdec.decode("in.264"):
        if isinstance(event, avcdec.Picture):
            print(event.width, event.height, event.luma.row(0)[:8].hex())
        else:
            print(event)  # refused unit 3: 32 FrameNumGap

A picture has memory of its own, one copy of what is shown. With `lend=True` it is not copied: its planes are views of the rows in the
decoder's memory, until the next event. Then they are released, and `Picture.copy` keeps one.

`compare` and `macroblocks` are for test benches, and run the program `avcdec`.

It stands on the shared library libavcdec: the file that AVCDEC_LIBRARY names, else the one that `pip install` has put beside this file,
else where the system finds it. It needs nothing else; where numpy is installed, a Plane gives an array.
"""

from __future__ import annotations

import ctypes
import ctypes.util
import operator
import os
import re
import sys
from dataclasses import dataclass
from typing import TYPE_CHECKING, Any, BinaryIO, Iterable, Iterator, NamedTuple, Optional, Tuple, Union

from .bench import Comparison, compare, macroblocks

if TYPE_CHECKING:
    import numpy
    import numpy.typing

__all__ = [
    "Closed", "Comparison", "Decoder", "Ended", "Error", "Event", "OutOfMemory", "Picture", "PictureInfo", "Plane", "Refusal",
    "access_units", "compare", "decode", "macroblocks", "version",
]

__version__ = "0.2.0"

_PICTURE, _REFUSED = 1, 2
_NO_VALUE = 9
_NAME_SIZE = 32
# nal_unit_type of slices and partitions A, and of what begins an access unit where it stands behind one (7.4.1.2.3)
_SLICES = (1, 2, 5)
_BEFORE_SLICES = (6, 7, 8, 9, 14, 15, 16, 17, 18)
# the most bytes that `decode` reads at a time
_PIECE = 65_536


class _Handle(ctypes.Structure):
    _fields_ = [("open", ctypes.c_bool), ("state", ctypes.c_void_p)]


class _Event(ctypes.Structure):
    _fields_ = [
        ("kind", ctypes.c_uint32),
        ("fault", ctypes.c_uint32),
        ("unit", ctypes.c_uint64),
        ("width", ctypes.c_uint32),
        ("height", ctypes.c_uint32),
        ("crop_left", ctypes.c_uint32),
        ("crop_right", ctypes.c_uint32),
        ("crop_top", ctypes.c_uint32),
        ("crop_bottom", ctypes.c_uint32),
        ("value", ctypes.c_uint64),
    ]


class _Info(ctypes.Structure):
    _fields_ = [
        ("unit", ctypes.c_uint64),
        ("pic_order_cnt", ctypes.c_int32),
        ("is_idr", ctypes.c_uint32),
        ("frame_num", ctypes.c_uint32),
        ("sar_width", ctypes.c_uint32),
        ("sar_height", ctypes.c_uint32),
        ("video_full_range_flag", ctypes.c_uint32),
        ("colour_primaries", ctypes.c_uint32),
        ("transfer_characteristics", ctypes.c_uint32),
        ("matrix_coefficients", ctypes.c_uint32),
        ("chroma_sample_loc_type", ctypes.c_uint32),
        ("num_units_in_tick", ctypes.c_uint32),
        ("time_scale", ctypes.c_uint32),
        ("has_max_num_reorder_frames", ctypes.c_uint32),
        ("max_num_reorder_frames", ctypes.c_uint32),
    ]


class _Rows(ctypes.Structure):
    _fields_ = [
        ("samples", ctypes.c_void_p),
        ("length", ctypes.c_size_t),
        ("stride", ctypes.c_size_t),
        ("columns", ctypes.c_uint32),
        ("rows", ctypes.c_uint32),
    ]


def _open_library() -> ctypes.CDLL:
    beside = os.path.join(os.path.dirname(os.path.abspath(__file__)), "libavcdec.so.0")
    name = os.environ.get("AVCDEC_LIBRARY") or (os.path.exists(beside) and beside) or ctypes.util.find_library("avcdec") or "libavcdec.so.0"
    try:
        return ctypes.CDLL(name)
    except OSError as error:
        text = f"{error}. `pip install bindings/python` brings the library, and AVCDEC_LIBRARY names another: PREFIX/lib/libavcdec.so"
        raise ImportError(text) from None


def _load() -> ctypes.CDLL:
    library = _open_library()
    handle, status = ctypes.POINTER(_Handle), ctypes.c_uint32
    for function, result, arguments in [
        ("avcdec_open", status, [handle, ctypes.c_bool]),
        ("avcdec_close", None, [handle]),
        ("avcdec_feed", status, [handle, ctypes.c_void_p, ctypes.c_size_t]),
        ("avcdec_feed_unit", status, [handle, ctypes.c_void_p, ctypes.c_size_t, ctypes.POINTER(ctypes.c_size_t)]),
        ("avcdec_mark", status, [handle, ctypes.c_uint64]),
        ("avcdec_flush", status, [handle]),
        ("avcdec_reset", status, [handle]),
        ("avcdec_take", status, [handle, ctypes.POINTER(_Event)]),
        ("avcdec_take_dropped", status, [handle, ctypes.POINTER(ctypes.c_uint64)]),
        ("avcdec_picture_info", status, [handle, ctypes.POINTER(_Info)]),
        ("avcdec_lend_plane", status, [handle, ctypes.c_uint32, ctypes.POINTER(_Rows)]),
        ("avcdec_copy_i420", status, [handle, ctypes.c_void_p, ctypes.c_size_t]),
        ("avcdec_turns", ctypes.c_uint64, [handle]),
        ("avcdec_fault_name", status, [ctypes.c_uint32, ctypes.c_char_p, ctypes.c_size_t]),
        ("avcdec_version", ctypes.c_uint32, []),
    ]:
        entry = getattr(library, function)
        entry.restype, entry.argtypes = result, arguments
    return library


_library = _load()


class Error(Exception):
    """A call was not carried out."""


class OutOfMemory(Error, MemoryError):
    """The system gave no memory: each call answers so until `Decoder.reset`."""


class Ended(Error):
    """The stream has been ended by `Decoder.flush`. Nothing changes."""


class Closed(Error):
    """The decoder has been closed. Nothing changes."""


# what a call answers, but for 0, and its text; those that no call of this package gets have no name of their own
_STATUSES: list[tuple[type[Error], str]] = [
    (OutOfMemory, "out of memory"),
    (Ended, "the stream has ended"),
    (Closed, "the decoder is closed"),
    (Error, "the decoder is open already"),
    (Error, "no picture was taken last"),
    (Error, "too little room"),
    (Error, "no such plane"),
    (Error, "no such fault"),
]


@dataclass(frozen=True)
class Refusal:
    """A refusal of a picture or of a unit. Its text is that of the program."""

    unit: int
    """The NAL unit in which the fault stands, counted from 0 since the last reset."""
    fault: int
    """The number of the fault."""
    value: int = 0
    """The value that `Decoder.mark` gave to the unit; 0 where no mark was made before it."""

    @property
    def name(self) -> str:
        """The name of the fault, as FrameNumGap."""
        name = ctypes.create_string_buffer(_NAME_SIZE)
        _library.avcdec_fault_name(self.fault, name, _NAME_SIZE)
        return name.value.decode("ascii")

    def __str__(self) -> str:
        return f"refused unit {self.unit}: {self.fault} {self.name}"


@dataclass(frozen=True)
class Plane:
    """One plane of a picture: what is shown of it, row by row."""

    samples: memoryview
    """From the first sample of the first row to the last of the last. What stands between two rows is not shown."""
    stride: int
    """How many samples lie from one row to the next."""
    width: int
    height: int

    def row(self, y: int) -> memoryview:
        """The samples of a row."""
        if not 0 <= y < self.height:
            raise IndexError(f"row {y} of {self.height}")
        return self.samples[y * self.stride : y * self.stride + self.width]

    def rows(self) -> Iterator[memoryview]:
        """The rows, from the top."""
        return (self.row(y) for y in range(self.height))

    def array(self) -> numpy.typing.NDArray[numpy.uint8]:
        """The rows as an array of numpy, which shares the memory: element [y, x]."""
        import numpy

        return numpy.ndarray((self.height, self.width), numpy.uint8, self.samples, 0, (self.stride, 1))

    def __eq__(self, other: object) -> bool:
        if not isinstance(other, Plane):
            return NotImplemented
        return (self.width, self.height) == (other.width, other.height) and all(map(operator.eq, self.rows(), other.rows()))

    def __hash__(self) -> int:
        return hash((self.width, self.height))

    def __repr__(self) -> str:
        return f"Plane({self.width}x{self.height})"


class _LentPlane(Plane):
    """A plane in the decoder's memory, whose views are known, so that they can be released."""

    _block: object
    _views: list[memoryview]

    def __init__(self, rows: _Rows) -> None:
        length = (rows.rows - 1) * rows.stride + rows.columns if rows.rows and rows.columns else 0
        block = (ctypes.c_char * length).from_address(rows.samples) if length else b""
        view = memoryview(block).toreadonly().cast("B")
        super().__init__(view, rows.stride, rows.columns, rows.rows)
        object.__setattr__(self, "_block", block)
        object.__setattr__(self, "_views", [view])

    def row(self, y: int) -> memoryview:
        view = super().row(y)
        self._views.append(view)
        return view

    def release(self) -> None:
        """Ends the views. A BufferError says that something else still stands on them, as an array."""
        for view in self._views:
            view.release()
        # the memory is named by the attribute and by the argument; what else names it is a view that was cut from these
        if self.height and hasattr(sys, "getrefcount") and sys.getrefcount(self._block) > 2:
            raise BufferError("a view")


class PictureInfo(NamedTuple):
    """What is known of a picture beside its samples. The fields from `sar_width` on are the stream's VUI parameters (E.2.1), with the values
    that the standard infers where they are not given."""

    unit: int
    """The NAL unit that brought its first slice, counted from 0 since the last reset."""
    is_idr: bool
    """Whether it is an IDR picture: nothing before it is needed to decode what follows it."""
    frame_num: int
    """frame_num of its slices (7.4.3)."""
    pic_order_cnt: int
    """PicOrderCnt (8.2.1): pictures from one IDR picture to the next go out in its order."""
    sar_width: int
    """The shape of a luma sample, of which only the ratio to `sar_height` matters. Both are 0 where it is not given."""
    sar_height: int
    video_full_range_flag: bool
    """Whether samples take all values from 0 to 255."""
    colour_primaries: int
    """Table E-3; 2 where it is not given, as the two after it."""
    transfer_characteristics: int
    matrix_coefficients: int
    chroma_sample_loc_type: int
    """Figure E-1."""
    num_units_in_tick: int
    """There are time_scale / (2 * num_units_in_tick) frames in a second. Both are 0 where they are not given."""
    time_scale: int
    max_num_reorder_frames: Optional[int]
    """Behind how many frames, at most, one goes out that came before them; nothing where it is not given."""


@dataclass(frozen=True)
class Picture:
    """What is shown of a decoded picture: the crop window, at 4:2:0 with samples of eight bits."""

    width: int
    """In luma samples."""
    height: int
    coded_size: Tuple[int, int]
    """Width and height without cropping."""
    luma: Plane
    cb: Plane
    cr: Plane
    info: PictureInfo
    """What is known of it beside its samples."""
    value: int
    """The value that `Decoder.mark` gave to the unit of its first slice; 0 where no mark was made before it."""

    @property
    def planes(self) -> Tuple[Plane, Plane, Plane]:
        """Luma, Cb, Cr."""
        return self.luma, self.cb, self.cr

    @property
    def i420(self) -> bytes:
        """Luma, Cb and Cr, each row by row without gaps. It is made anew where the picture is lent."""
        whole = self.luma.samples.obj
        return whole if isinstance(whole, bytes) else b"".join(row for plane in self.planes for row in plane.rows())

    def copy(self) -> Picture:
        """The picture in memory of its own."""
        return _of_i420(self.width, self.height, self.coded_size, self.i420, self.info, self.value)

    def __eq__(self, other: object) -> bool:
        if not isinstance(other, Picture):
            return NotImplemented
        return (self.width, self.height, self.coded_size, self.i420) == (other.width, other.height, other.coded_size, other.i420)

    def __hash__(self) -> int:
        return hash((self.width, self.height, self.coded_size, self.i420))

    def __repr__(self) -> str:
        return f"Picture({self.width}x{self.height})"


def _of_i420(width: int, height: int, coded_size: Tuple[int, int], i420: bytes, info: PictureInfo, value: int) -> Picture:
    start, planes = 0, []
    for columns, rows in [(width, height), (width // 2, height // 2), (width // 2, height // 2)]:
        planes.append(Plane(memoryview(i420)[start : start + columns * rows], columns, columns, rows))
        start += columns * rows
    luma, cb, cr = planes
    return Picture(width, height, coded_size, luma, cb, cr, info, value)


Event = Union[Picture, Refusal]
Data = Union[bytes, bytearray, memoryview]


class Decoder:
    """A decoder of one byte stream (Annex B) at a time. It may go from thread to thread; there is one call at a time.

    With `early` a picture goes out as soon as the stream's max_num_reorder_frames allows, where it gives it; else once the decoded
    picture buffer has no room, at an IDR picture, or at the end.
    """

    def __init__(self, early: bool = False) -> None:
        self._lent: list[_LentPlane] = []
        self._handle = _Handle()
        _tell(_library.avcdec_open(self._handle, early))

    def feed(self, data: Data) -> None:
        """Takes the next bytes of the stream. All pictures that they bring wait inside until they are taken, and a small piece can bring
        many: `feed_unit` and `decode` bound them."""
        piece = _bytes(data)
        _tell(_library.avcdec_feed(self._handle, _address(piece), len(piece)))

    def feed_unit(self, data: Data, start: int = 0) -> int:
        """Takes data[start:] as `feed` does, but only up to where the next unit has ended, and answers how many bytes that are: at least
        1 where there are any, and all where no unit has ended. Where all events are taken after each call, at most the pictures that one
        unit lets out wait."""
        piece = _bytes(data)
        if not 0 <= start <= len(piece):
            raise IndexError(f"byte {start} of {len(piece)}")
        used = ctypes.c_size_t()
        _tell(_library.avcdec_feed_unit(self._handle, _address(piece) + start, len(piece) - start, used))
        return used.value

    def mark(self, value: int) -> None:
        """Gives a value from 0 to 2**64 - 1, as the time of a packet, to all units that begin with the bytes fed from here on, up to the next
        mark. Each event has that of its unit, in whichever order pictures come. The newest 1,024 marks are kept, of one unit the last; a reset
        forgets them."""
        if not 0 <= value < 1 << 64:
            raise OverflowError(f"{value} is no value from 0 to 2**64 - 1")
        _tell(_library.avcdec_mark(self._handle, value))

    def take_dropped(self) -> Optional[int]:
        """The oldest value that no event has had and none will have: its mark was made before that of the newest IDR picture that was taken.
        It goes, so that the next call tells the next one. Behind the last event after `flush` none of the others comes either, and they are
        not told."""
        value = ctypes.c_uint64()
        status = _library.avcdec_take_dropped(self._handle, value)
        if status == _NO_VALUE:
            return None
        _tell(status)
        return value.value

    def end_access_unit(self) -> None:
        """Says that the bytes so far end with a whole access unit: its picture is decoded now. It adds 1 to the count of units."""
        self.feed(b"\x00\x00\x01\x09\xf0\x00\x00\x01")

    def flush(self) -> None:
        """Ends the stream: the bytes so far are all."""
        _tell(_library.avcdec_flush(self._handle))

    def reset(self) -> None:
        """Forgets everything, want of memory too: a new stream begins."""
        self._take_back()
        _tell(_library.avcdec_reset(self._handle))

    def take(self, lend: bool = False) -> Optional[Event]:
        """The next event that the bytes so far define, if there is one. With `lend` its picture is not copied: it stands in the decoder's
        memory until the next `take`, `reset` or `close`, which releases its views. Where an array stands on them still, that call raises
        BufferError and does nothing."""
        self._take_back()
        event = _Event()
        _tell(_library.avcdec_take(self._handle, event))
        if event.kind == _PICTURE:
            return self._lend(event) if lend else self._copy(event)
        if event.kind == _REFUSED:
            return Refusal(event.unit, event.fault, event.value)
        return None

    def events(self, lend: bool = False) -> Iterator[Event]:
        """The events that the bytes so far define, one after another."""
        return iter(lambda: self.take(lend), None)

    def decode(self, data: Data, lend: bool = False) -> Iterator[Event]:
        """Feeds bytes unit by unit, and gives the events as they come."""
        piece, at = _bytes(data), 0
        while at < len(piece):
            at += self.feed_unit(piece, at)
            yield from self.events(lend)

    @property
    def turns(self) -> int:
        """How many macroblocks have been read since the last reset."""
        return int(_library.avcdec_turns(self._handle))

    def close(self) -> None:
        """Frees what the decoder holds. A closed one answers each call by `Closed`."""
        self._take_back()
        _library.avcdec_close(self._handle)

    def __enter__(self) -> Decoder:
        return self

    def __exit__(self, *_: object) -> None:
        self.close()

    def __del__(self) -> None:
        if hasattr(self, "_handle"):
            try:
                self.close()
            except BufferError:
                pass  # an array stands in its memory still, so that is not freed

    def _copy(self, event: _Event) -> Picture:
        width = event.width - event.crop_left - event.crop_right
        height = event.height - event.crop_top - event.crop_bottom
        i420 = _new_bytes(width * height + 2 * (width // 2) * (height // 2))
        _tell(_library.avcdec_copy_i420(self._handle, _address(i420), len(i420)))
        return _of_i420(width, height, (event.width, event.height), i420, self._info(), event.value)

    def _lend(self, event: _Event) -> Picture:
        for plane in range(3):
            rows = _Rows()
            _tell(_library.avcdec_lend_plane(self._handle, plane, rows))
            self._lent.append(_LentPlane(rows))
        luma, cb, cr = self._lent
        return Picture(luma.width, luma.height, (event.width, event.height), luma, cb, cr, self._info(), event.value)

    # of the picture that was taken last
    def _info(self) -> PictureInfo:
        told = _Info()
        _tell(_library.avcdec_picture_info(self._handle, told))
        return PictureInfo(
            told.unit, bool(told.is_idr), told.frame_num, told.pic_order_cnt, told.sar_width, told.sar_height, bool(told.video_full_range_flag),
            told.colour_primaries, told.transfer_characteristics, told.matrix_coefficients, told.chroma_sample_loc_type,
            told.num_units_in_tick, told.time_scale, told.max_num_reorder_frames if told.has_max_num_reorder_frames else None,
        )

    # the rows that are lent come back
    def _take_back(self) -> None:
        try:
            for plane in self._lent:
                plane.release()
        except BufferError:
            raise BufferError("rows of the last picture are in use: copy them, or let them go") from None
        self._lent = []


Source = Union["os.PathLike[str]", str, BinaryIO, Data, Iterable[bytes]]


def decode(source: Source, early: bool = False, lend: bool = False) -> Iterator[Event]:
    """The events of a whole stream: of a file or its path (a text or a `pathlib.Path`), of bytes, or of pieces of bytes. With `lend` a picture
    is not copied: it is there until the next event, as `Decoder.take` says."""
    with Decoder(early) as decoder:
        for piece in _pieces(source):
            yield from decoder.decode(piece, lend)
        decoder.flush()
        yield from decoder.events(lend)


def access_units(data: Data) -> Iterator[bytes]:
    """The access units (7.4.1.2.3) of a stream that is there as a whole, one after another: a packet each, for `Decoder.mark`, `Decoder.decode`
    and `Decoder.end_access_unit`. Slices of a picture come in the order of their macroblocks, so one begins an access unit where its
    first_mb_in_slice is 0; a picture whose first slice is lost is taken for a part of the one before."""
    stream, begin, has_slice = _bytes(data), 0, False
    for unit in re.finditer(rb"\x00?\x00\x00\x01(?=(.)(.))", stream, re.DOTALL):
        nal_unit_type, first_byte = unit[1][0] & 31, unit[2][0]
        is_slice = nal_unit_type in _SLICES
        if has_slice and (first_byte >= 128 if is_slice else nal_unit_type in _BEFORE_SLICES):
            yield stream[begin : unit.start()]
            begin, has_slice = unit.start(), False
        has_slice = has_slice or is_slice
    if begin < len(stream):
        yield stream[begin:]


def version() -> tuple[int, int, int]:
    """The version of the library."""
    number = _library.avcdec_version()
    return number >> 16, number >> 8 & 255, number & 255


def _pieces(source: Source) -> Iterator[Data]:
    read = getattr(source, "read", None)
    if isinstance(source, (str, os.PathLike)):
        with open(source, "rb") as file:
            yield from _pieces(file)
    elif isinstance(source, (bytes, bytearray, memoryview)):
        yield source
    elif read is not None:
        while piece := read(_PIECE):
            yield piece
    else:
        yield from source


# as bytes, which are not copied where they are bytes; a TypeError where they are none
def _bytes(data: Data) -> bytes:
    return data if isinstance(data, bytes) else memoryview(data).tobytes()


# bytes that nobody has seen yet, to be filled
def _new_bytes(length: int) -> bytes:
    new = ctypes.pythonapi.PyBytes_FromStringAndSize
    new.restype, new.argtypes = ctypes.py_object, [ctypes.c_void_p, ctypes.c_ssize_t]
    made: bytes = new(None, length)
    return made


# where bytes lie
def _address(data: bytes) -> int:
    return ctypes.cast(ctypes.c_char_p(data), ctypes.c_void_p).value or 0


def _tell(status: int) -> None:
    if status:
        kind, text = _STATUSES[status - 1]
        raise kind(text)
