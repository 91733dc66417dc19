"""Builds the wheel of the package cheri_cap: the module, the mark of its types, and the shared library. pip calls it
for `pip install ./python` and `pip wheel ./python`, as pyproject.toml says.

The library is the file that the environment's CHERI_CAP_LIBRARY names, or otherwise the one that `examples/run shared`
of the checkout builds if necessary. The version is CHERI_CAP_WHEEL, or otherwise the latest of CHANGELOG.md. Equal files give
an equal wheel.
"""

import base64
import hashlib
import os
import re
import subprocess
import zipfile
from pathlib import Path
from typing import Any, Dict, Optional

HERE = Path(__file__).resolve().parent
TOP = HERE.parent
# the zip format's first date, so that the time of the build does not matter
DATE = (1980, 1, 1, 0, 0, 0)


def version() -> str:
    named = os.environ.get("CHERI_CAP_WHEEL")
    if named:
        return named
    found = re.search(r"^## (\d\S*)", (TOP / "CHANGELOG.md").read_text(encoding="utf-8"), flags=re.MULTILINE)
    if not found:
        raise SystemExit("cheri_cap: CHANGELOG.md has no version")
    return found[1]


def library() -> Path:
    """Returns the shared library's file, and builds it if necessary."""
    named = os.environ.get("CHERI_CAP_LIBRARY")
    if named:
        return Path(named)
    built = subprocess.run([TOP / "examples" / "run", "shared"], stdout=subprocess.PIPE, text=True)
    if built.returncode:
        raise SystemExit("cheri_cap: examples/run shared cannot build the library; CHERI_CAP_LIBRARY may name its file")
    return Path(built.stdout.strip())


def platform(shared: bytes) -> str:
    """Returns the tag of the platforms whose C library has all that the shared library needs: glibc 2.17 or later."""
    needed = [(int(major), int(minor)) for major, minor in re.findall(rb"GLIBC_(\d+)\.(\d+)", shared)]
    major, minor = max([(2, 17), *needed])
    return f"manylinux_{major}_{minor}_x86_64"


def build_wheel(
    wheel_directory: str, config_settings: Optional[Dict[str, Any]] = None, metadata_directory: Optional[str] = None
) -> str:
    """Builds the wheel, and returns its name."""
    place = library()
    shared = place.read_bytes()
    name = re.search(r"^VERSION = (\d+)$", (HERE / "cheri_cap.py").read_text(encoding="utf-8"), flags=re.MULTILINE)
    tag = f"py3-none-{platform(shared)}"
    info = f"cheri_cap-{version()}.dist-info"
    metadata = (
        f"Metadata-Version: 2.1\nName: cheri-cap\nVersion: {version()}\n"
        "Summary: CHERI Concentrate capabilities of 128 bits, over a proved library\nRequires-Python: >=3.8\n"
    )
    files = {
        "cheri_cap/__init__.py": (HERE / "cheri_cap.py").read_bytes(),
        "cheri_cap/py.typed": b"",
        f"cheri_cap/libcheri_cap.so.{name[1] if name else ''}": shared,
        f"{info}/METADATA": metadata.encode(),
        f"{info}/WHEEL": f"Wheel-Version: 1.0\nGenerator: cheri_cap_build\nRoot-Is-Purelib: false\nTag: {tag}\n".encode(),
    }
    record = f"{info}/RECORD"
    files[record] = "".join([*(record_line(*it) for it in files.items()), f"{record},,\n"]).encode()
    wheel = f"cheri_cap-{version()}-{tag}.whl"
    with zipfile.ZipFile(Path(wheel_directory) / wheel, "w", zipfile.ZIP_DEFLATED) as archive:
        for path, data in files.items():
            entry = zipfile.ZipInfo(path, DATE)
            entry.external_attr = (0o100755 if ".so." in path else 0o100644) << 16
            entry.compress_type = zipfile.ZIP_DEFLATED
            archive.writestr(entry, data)
    return wheel


def record_line(path: str, data: bytes) -> str:
    checksum = base64.urlsafe_b64encode(hashlib.sha256(data).digest()).rstrip(b"=").decode()
    return f"{path},sha256={checksum},{len(data)}\n"


def build_sdist(sdist_directory: str, config_settings: Optional[Dict[str, Any]] = None) -> str:
    raise SystemExit("cheri_cap: there is no source distribution, since the library is proved and built in a checkout")
