"""What test benches ask of the program `avcdec`: what each macroblock of a stream is, and where another decoder's pictures differ.

The program is the one that `program` names, else that of AVCDEC_PROGRAM, else the one that the system finds."""

from __future__ import annotations

import json
import os
import re
import subprocess
import tempfile
from dataclasses import dataclass
from typing import Any, BinaryIO, Dict, Iterable, Iterator, Optional, Union

__all__ = ["Comparison", "compare", "macroblocks"]

File = Union["os.PathLike[str]", str]
Bytes = Union[bytes, bytearray, memoryview]


@dataclass(frozen=True)
class Comparison:
    """What became of a comparison. Where no picture differs all but `same`, `told` and `psnr` is None."""

    same: bool
    """Whether all pictures are the same, and nothing was refused."""
    told: str
    """What `avcdec compare` writes."""
    refused: str
    """What it writes on standard error."""
    psnr: list[tuple[float, float, float]]
    """Where it was wanted, the PSNR of luma, Cb and Cr of each picture that was compared, in decibels; inf where they are the same."""
    picture: Optional[int] = None
    """The first picture that differs, in output order, from 0."""
    macroblock: Optional[int] = None
    """The address of the macroblock of its first sample that differs."""
    component: Optional[str] = None
    """The component of that sample: luma, Cb or Cr."""
    column: Optional[int] = None
    row: Optional[int] = None
    ours: Optional[int] = None
    theirs: Optional[int] = None


def _program(program: Optional[File]) -> str:
    return os.fspath(program or os.environ.get("AVCDEC_PROGRAM") or "avcdec")


def _whole(data: Union[Bytes, Iterable[Any]]) -> bytes:
    """Bytes, or those of all pictures of an iterable: arrays of numpy too."""
    if isinstance(data, (bytes, bytearray, memoryview)):
        return bytes(data)
    pictures: Iterable[Any] = data
    return b"".join(memoryview(picture).tobytes() for picture in pictures)


def _named(data: Union[File, Bytes, Iterable[Any]], folder: str, name: str) -> str:
    """The file of this name, or one that is made of these bytes."""
    if isinstance(data, (str, os.PathLike)):
        return os.fspath(data)
    path = os.path.join(folder, name)
    with open(path, "wb") as file:
        file.write(_whole(data))
    return path


def macroblocks(
    stream: Union[File, Bytes], picture: Optional[int] = None, coefficients: bool = False, program: Optional[File] = None
) -> Iterator[Dict[str, Any]]:
    """The objects that `avcdec macroblocks --json` writes, one for each macroblock as its slice is read: of all pictures, or of one by its number
    in decoding order, from 0; with the levels of its blocks where they are wanted."""
    words = [_program(program), "macroblocks", "--json"]
    words += ["--picture", str(picture)] if picture is not None else []
    words += ["--coefficients"] if coefficients else []
    with tempfile.TemporaryDirectory() as folder:
        with subprocess.Popen([*words, _named(stream, folder, "in.264")], stdout=subprocess.PIPE) as run:
            lines: BinaryIO = run.stdout  # type: ignore[assignment]
            for line in lines:
                yield json.loads(line)
        if run.returncode:
            raise subprocess.CalledProcessError(run.returncode, words)


_FIRST = re.compile(
    r"^first: macroblock (?P<macroblock>\d+) \(.*?\), (?P<component>\w+) sample at column (?P<column>\d+), row (?P<row>\d+) \(.*?\): "
    r"(?P<ours>\d+), the other's (?P<theirs>\d+)$",
    re.MULTILINE,
)
_PICTURE = re.compile(r"^picture (\d+): ", re.MULTILINE)
_PSNR = re.compile(r"^picture \d+ psnr Y (\S+) U (\S+) V (\S+)$", re.MULTILINE)


def compare(
    stream: Union[File, Bytes],
    pictures: Union[File, Bytes, Iterable[Any]],
    max_diff: int = 0,
    psnr: bool = False,
    program: Optional[File] = None,
) -> Comparison:
    """Where another decoder's pictures differ first from those of a stream, as `avcdec compare` says it. They are a file (I420 or YUV4MPEG2), its
    bytes, or the pictures one by one as I420: bytes or arrays of numpy. Samples that are at most max_diff apart do not differ."""
    words = [_program(program), "compare", "--max-diff", str(max_diff), *(["--psnr"] if psnr else [])]
    with tempfile.TemporaryDirectory() as folder:
        names = [_named(pictures, folder, "other"), _named(stream, folder, "in.264")]
        run = subprocess.run([*words, *names], capture_output=True, text=True, check=False)
    if run.returncode > 1:
        raise subprocess.CalledProcessError(run.returncode, words, run.stdout, run.stderr)
    ratios = [tuple(map(float, found)) for found in _PSNR.findall(run.stdout)]
    facts: Dict[str, Any] = {}
    first, number = _FIRST.search(run.stdout), _PICTURE.search(run.stdout)
    if first and number:
        facts = {name: found if name == "component" else int(found) for name, found in first.groupdict().items()}
        facts["picture"] = int(number[1])
    return Comparison(run.returncode == 0, run.stdout, run.stderr, ratios, **facts)  # type: ignore[arg-type]
