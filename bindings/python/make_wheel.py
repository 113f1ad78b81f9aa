"""Makes the wheel for pip (PEP 517) with nothing but Python: the package, and in it the shared library, so that no network is needed.

The library is the file that AVCDEC_LIBRARY names, else that of the repository in which this stands, as scripts/install.sh installs it."""

from __future__ import annotations

import base64
import hashlib
import os
import pathlib
import re
import subprocess
import sysconfig
import tempfile
import time
import zipfile
from typing import Any

HERE = pathlib.Path(__file__).resolve().parent
TOP = HERE.parent.parent
LIBRARY = "libavcdec.so.0"


def field(name: str) -> str:
    """A field of pyproject.toml."""
    found = re.search(rf'^{name} = "(.*)"$', (HERE / "pyproject.toml").read_text(encoding="utf-8"), re.MULTILINE)
    assert found, name
    return found[1]


def library() -> bytes:
    """The shared library."""
    named = os.environ.get("AVCDEC_LIBRARY")
    if named:
        return pathlib.Path(named).read_bytes()
    if not (TOP / "crates/avc_c/out/libavc_c.a").exists():
        raise RuntimeError(
            f"The library is not there. Either AVCDEC_LIBRARY names the file {LIBRARY}, or it is proved and built first, which takes its time: "
            "scripts/prove.py avc_c"
        )
    with tempfile.TemporaryDirectory() as prefix:
        done = subprocess.run(
            [str(TOP / "scripts/install.sh"), prefix], env={**os.environ, "LIBRARY_ONLY": "1", "DESTDIR": "", "LIBDIR": "lib"}, check=False
        )
        if done.returncode != 0:
            raise RuntimeError("scripts/install.sh could not install the library; see above")
        return pathlib.Path(prefix, "lib", LIBRARY).read_bytes()


def metadata() -> str:
    """What pip tells of the package."""
    return (
        f"Metadata-Version: 2.1\nName: {field('name')}\nVersion: {field('version')}\nSummary: {field('description')}\n"
        f"Requires-Python: {field('requires-python')}\nDescription-Content-Type: text/markdown\n\n"
    ) + (HERE / "README.md").read_text(encoding="utf-8")


def record(files: dict[str, bytes], name: str) -> bytes:
    """The list of files with their checksums."""
    lines = []
    for path, content in files.items():
        digest = base64.urlsafe_b64encode(hashlib.sha256(content).digest()).rstrip(b"=").decode()
        lines.append(f"{path},sha256={digest},{len(content)}\n")
    return "".join([*lines, f"{name},,\n"]).encode()


def build_wheel(wheel_directory: str, config_settings: Any = None, metadata_directory: Any = None) -> str:
    """Writes the wheel and answers its name. Two of the same files are the same byte for byte."""
    del config_settings, metadata_directory
    tag = "py3-none-" + re.sub(r"[-.]", "_", sysconfig.get_platform())
    about = f"avcdec-{field('version')}.dist-info"
    files = {f"avcdec/{file.name}": file.read_bytes() for file in sorted((HERE / "avcdec").iterdir()) if file.suffix in (".py", ".typed")}
    files[f"avcdec/{LIBRARY}"] = library()
    files[f"{about}/METADATA"] = metadata().encode()
    files[f"{about}/WHEEL"] = f"Wheel-Version: 1.0\nGenerator: avcdec\nRoot-Is-Purelib: false\nTag: {tag}\n".encode()
    files[f"{about}/RECORD"] = record(files, f"{about}/RECORD")
    name = f"avcdec-{field('version')}-{tag}.whl"
    date = time.gmtime(max(315532800, int(os.environ.get("SOURCE_DATE_EPOCH", "315532800"))))[:6]
    with zipfile.ZipFile(pathlib.Path(wheel_directory, name), "w", zipfile.ZIP_DEFLATED) as wheel:
        for path, content in files.items():
            entry = zipfile.ZipInfo(path, date)
            entry.external_attr = 0o100644 << 16
            entry.compress_type = zipfile.ZIP_DEFLATED
            wheel.writestr(entry, content)
    return name


def build_sdist(sdist_directory: str, config_settings: Any = None) -> str:
    """There is none: the library is built in the repository alone."""
    del sdist_directory, config_settings
    raise NotImplementedError("avcdec has no source archive of its own: take the repository, or a wheel")
