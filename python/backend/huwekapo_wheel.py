"""Makes the package's wheel, as PEP 517 asks for it: the modules, the shared library libhuwekapo.so, and the command `huwekapo`.

The library is the one that the package would load where it stands: of `install.sh`, or that which HUWEKAPO_LIBRARY names. One of another
version is refused. Nothing but Python's standard library is used.
"""

from __future__ import annotations

import base64
import hashlib
import os
import sys
import sysconfig
import zipfile
from pathlib import Path
from typing import Any, Dict, List, Optional

PYTHON = Path(__file__).resolve().parent.parent
sys.path.insert(0, str(PYTHON))

from huwekapo import library  # noqa: E402

NAME = "huwekapo"

METADATA = f"""Metadata-Version: 2.1
Name: {NAME}
Version: {library.VERSION}
Summary: Runs recorded allocation histories on a proved heap with reference counts of one to four bits
Requires-Python: >=3.9
Classifier: Programming Language :: Python :: 3
Classifier: Operating System :: POSIX :: Linux
Classifier: Typing :: Typed
Provides-Extra: plot
Requires-Dist: matplotlib; extra == "plot"
Provides-Extra: dask
Requires-Dist: distributed; extra == "dask"

The heap is the library libhuwekapo.so, which is in this wheel and proved to follow its rules. Nothing is proved of the package itself.
"""

SCRIPTS = f"""[console_scripts]
huwekapo = {NAME}.__main__:main
"""


def tag() -> str:
    """The wheel is for any Python 3 on this platform: the library is machine code, loaded by ctypes."""
    return "py3-none-" + sysconfig.get_platform().replace("-", "_").replace(".", "_")


def contents() -> Dict[str, bytes]:
    """The files of the wheel by name, but for the list of them."""
    information = f"{NAME}-{library.VERSION}.dist-info"
    files = {f"{NAME}/{path.name}": path.read_bytes() for path in (PYTHON / NAME).iterdir() if path.suffix in (".py", ".typed", ".html")}
    files[f"{NAME}/{library.FILE}"] = Path(library.path()).read_bytes()
    files[f"{information}/METADATA"] = METADATA.encode()
    files[f"{information}/WHEEL"] = f"Wheel-Version: 1.0\nGenerator: huwekapo_wheel\nRoot-Is-Purelib: false\nTag: {tag()}\n".encode()
    files[f"{information}/entry_points.txt"] = SCRIPTS.encode()
    return dict(sorted(files.items()))


def build_wheel(
    wheel_directory: str, config_settings: Optional[Dict[str, Any]] = None, metadata_directory: Optional[str] = None
) -> str:
    """Writes the wheel, the same bytes from the same files, and answers its name."""
    files = contents()
    listed = f"{NAME}-{library.VERSION}.dist-info/RECORD"
    lines = [f"{name},sha256={_digest(content)},{len(content)}\n" for name, content in files.items()]
    files[listed] = "".join(lines + [f"{listed},,\n"]).encode()
    wheel = f"{NAME}-{library.VERSION}-{tag()}.whl"
    with zipfile.ZipFile(os.path.join(wheel_directory, wheel), "w", zipfile.ZIP_DEFLATED) as file:
        for name, content in files.items():
            entry = zipfile.ZipInfo(name, (1980, 1, 1, 0, 0, 0))
            entry.external_attr = (0o100755 if name.endswith(".so") else 0o100644) << 16
            entry.compress_type = zipfile.ZIP_DEFLATED
            file.writestr(entry, content)
    return wheel


def build_sdist(sdist_directory: str, config_settings: Optional[Dict[str, Any]] = None) -> str:
    raise NotImplementedError("there is no package of sources: the library is proved and built by install.sh, in Huwekapo's clone")


def get_requires_for_build_wheel(config_settings: Optional[Dict[str, Any]] = None) -> List[str]:
    return []


def _digest(content: bytes) -> str:
    return base64.urlsafe_b64encode(hashlib.sha256(content).digest()).rstrip(b"=").decode()
