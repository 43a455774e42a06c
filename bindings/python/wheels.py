"""Builds the wheel of this package, which contains libsgt.so. It is the backend in `pyproject.toml`, and a program. It needs nothing else.

    python3 wheels.py FOLDER
"""

from __future__ import annotations

import base64
import hashlib
import pathlib
import re
import sys
import sysconfig
import zipfile
from typing import Any, Optional

HERE = pathlib.Path(__file__).resolve().parent
LIBRARY = HERE.parent / "out" / "libsgt.so"
UNPROVED = LIBRARY.with_name("unproved")  # it is there if the library was compiled without proof
HEADER = HERE.parent / "sgt.h"
SUMMARY = "An in-memory transaction engine that schedules by serialization graph testing"


def version() -> str:
    """Returns the version in the header, its only place, and whether the library is not proved, as its own version says it."""
    found = re.search(r'^#define SGT_VERSION "(.*)"$', HEADER.read_text(), re.MULTILINE)
    if not found:
        raise SystemExit("sgt.h has no version")
    return found[1] + ("+unproved" if UNPROVED.exists() else "")


def platform() -> str:
    return sysconfig.get_platform().replace("-", "_").replace(".", "_")


def files() -> dict[str, bytes]:
    """Returns the contents of the wheel, without the RECORD file."""
    if not LIBRARY.exists():
        raise SystemExit("no bindings/out/libsgt.so: bindings/build makes it")
    metadata = f"Metadata-Version: 2.1\nName: sgt\nVersion: {version()}\nSummary: {SUMMARY}\nRequires-Python: >=3.9\n"
    tags = f"Wheel-Version: 1.0\nGenerator: sgt\nRoot-Is-Purelib: false\nTag: py3-none-{platform()}\n"
    sources = {f"sgt/{path.name}": path.read_bytes() for path in sorted((HERE / "sgt").glob("*")) if path.is_file()}
    info = f"sgt-{version()}.dist-info"
    return {
        **sources,
        "sgt/libsgt.so": LIBRARY.read_bytes(),
        f"{info}/METADATA": metadata.encode(),
        f"{info}/WHEEL": tags.encode(),
    }


def record_line(name: str, data: bytes) -> str:
    digest = base64.urlsafe_b64encode(hashlib.sha256(data).digest()).rstrip(b"=").decode()
    return f"{name},sha256={digest},{len(data)}\n"


def build_wheel(wheel_directory: str, config_settings: Optional[dict[str, Any]] = None, metadata_directory: Optional[str] = None) -> str:
    """Writes the wheel into the folder and returns its name."""
    name, held = f"sgt-{version()}-py3-none-{platform()}.whl", files()
    record = f"sgt-{version()}.dist-info/RECORD"
    lines = "".join(record_line(path, data) for path, data in held.items()) + f"{record},,\n"
    with zipfile.ZipFile(pathlib.Path(wheel_directory) / name, "w", zipfile.ZIP_DEFLATED) as wheel:
        for path, data in {**held, record: lines.encode()}.items():
            wheel.writestr(path, data)
    return name


if __name__ == "__main__":
    if len(sys.argv) != 2:
        sys.exit(__doc__)
    print(build_wheel(sys.argv[1]))
