"""Builds the wheel of the package for pip (PEP 517, PEP 660), with nothing but Python: its files, the records of examples/, which its
driver tries first, and libct.so of bindings/out where bindings/build.sh has made it. Without it the package uses `ct_tool`. The same files
make the same bytes."""
from __future__ import annotations

import base64
import hashlib
import os
import re
import sysconfig
import zipfile
from typing import Any, Dict, List, Optional

HERE = os.path.dirname(os.path.abspath(__file__))
LIBRARY = os.path.join(HERE, "..", "out", "libct.so")
EXAMPLES = os.path.join(HERE, "..", "..", "examples")
with open(os.path.join(HERE, "pyproject.toml"), encoding="utf-8") as _file:
    PROJECT = dict(re.findall(r'^([a-z-]+) = "(.*)"$', _file.read(), re.M))
NAME, VERSION = PROJECT["name"], PROJECT["version"]
INFO = f"{NAME}-{VERSION}.dist-info"
METADATA = (f"Metadata-Version: 2.1\nName: {NAME}\nVersion: {VERSION}\nSummary: {PROJECT['description']}\n"
            f"Requires-Python: {PROJECT['requires-python']}\n")
PLUGIN = f"[pytest11]\n{NAME}.drive.plugin = {NAME}.drive.plugin\n"
ANY = "py3-none-any"
MADE = (1980, 1, 1, 0, 0, 0)   # as early as an archive can say


def _files() -> Dict[str, bytes]:
    """The package's files by their names in the wheel."""
    folders = {NAME: os.path.join(HERE, NAME), f"{NAME}/drive": os.path.join(HERE, NAME, "drive"), f"{NAME}/drive/examples": EXAMPLES}
    paths = {f"{name}/{it}": os.path.join(folder, it) for name, folder in folders.items() for it in sorted(os.listdir(folder))}
    found = {name: path for name, path in paths.items() if name.endswith((".py", ".typed", ".json"))}
    if os.path.exists(LIBRARY):
        found[f"{NAME}/libct.so"] = LIBRARY
    files = {}
    for name, path in found.items():
        with open(path, "rb") as file:
            files[name] = file.read()
    return files


def _tag(settings: Any) -> str:
    """For which Python and machine the wheel is: for the machine that the setting `platform` names, or this one."""
    if not os.path.exists(LIBRARY):
        return ANY
    return "py3-none-" + ((settings or {}).get("platform") or sysconfig.get_platform().replace("-", "_").replace(".", "_"))


def _entry(name: str, data: bytes) -> str:
    """The line of a file in the wheel's record."""
    digest = base64.urlsafe_b64encode(hashlib.sha256(data).digest()).rstrip(b"=").decode()
    return f"{name},sha256={digest},{len(data)}\n"


def _written(directory: str, tag: str, files: Dict[str, bytes]) -> str:
    """Writes the wheel of these files, and gives its name."""
    files[f"{INFO}/METADATA"] = METADATA.encode()
    files[f"{INFO}/entry_points.txt"] = PLUGIN.encode()
    files[f"{INFO}/WHEEL"] = f"Wheel-Version: 1.0\nGenerator: backend\nRoot-Is-Purelib: {str(tag == ANY).lower()}\nTag: {tag}\n".encode()
    entries: List[str] = [_entry(name, data) for name, data in files.items()]
    files[f"{INFO}/RECORD"] = "".join(entries + [f"{INFO}/RECORD,,\n"]).encode()
    wheel = f"{NAME}-{VERSION}-{tag}.whl"
    with zipfile.ZipFile(os.path.join(directory, wheel), "w", zipfile.ZIP_DEFLATED) as archive:
        for name, data in files.items():
            archive.writestr(zipfile.ZipInfo(name, MADE), data, zipfile.ZIP_DEFLATED)
    return wheel


def build_wheel(wheel_directory: str, config_settings: Any = None, metadata_directory: Optional[str] = None) -> str:
    """Writes the wheel, and gives its name. The setting `origin` is a file that says of what it is made."""
    files = _files()
    origin = (config_settings or {}).get("origin")
    if origin:
        with open(origin, "rb") as file:
            files[f"{INFO}/ORIGIN"] = file.read()
    return _written(wheel_directory, _tag(config_settings), files)


def build_editable(wheel_directory: str, config_settings: Any = None, metadata_directory: Optional[str] = None) -> str:
    """Writes a wheel that has Python look for the package here, with libct.so of bindings/out, and gives its name."""
    return _written(wheel_directory, ANY, {f"{NAME}.pth": f"{HERE}\n".encode()})


def build_sdist(sdist_directory: str, config_settings: Any = None) -> str:
    """The package is installed from a clone."""
    raise NotImplementedError("build a wheel from a clone: pip install ./bindings/python")
