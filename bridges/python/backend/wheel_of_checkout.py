"""A build backend that packs `src/` into a wheel. It needs no other package, so that pip asks no
registry.

It has the one hook that `pip install` needs, `build_wheel` of PEP 517, and writes version 1.0 of
the wheel format. The wheel records the path of the checkout that it was built in, so that the
installed package finds the program that `./build` puts there.
"""

import base64
import hashlib
import tomllib
import zipfile
from pathlib import Path
from typing import Any

HERE = Path(__file__).resolve().parent.parent
CHECKOUT = HERE.parent.parent
# The module that says where the checkout is, and its text in the wheel.
CHECKOUT_MODULE = "cpsolve/_checkout.py"
CHECKOUT_TEXT = f'''"""The checkout that this package was installed from."""

from pathlib import Path

CHECKOUT = Path({str(CHECKOUT)!r})
'''
WHEEL_TEXT = """Wheel-Version: 1.0
Generator: cpsolve
Root-Is-Purelib: true
Tag: py3-none-any
"""


def build_wheel(
    wheel_directory: str,
    config_settings: dict[str, Any] | None = None,
    metadata_directory: str | None = None,
) -> str:
    """Writes the wheel into a folder, and returns its file name."""
    project = tomllib.loads((HERE / "pyproject.toml").read_text())["project"]
    name, version = project["name"], project["version"]
    info = f"{name}-{version}.dist-info"
    files = package_files()
    files[f"{info}/METADATA"] = metadata(project).encode()
    files[f"{info}/WHEEL"] = WHEEL_TEXT.encode()
    files[f"{info}/RECORD"] = record(files, f"{info}/RECORD").encode()
    wheel = f"{name}-{version}-py3-none-any.whl"
    with zipfile.ZipFile(Path(wheel_directory, wheel), "w", zipfile.ZIP_DEFLATED) as archive:
        for path, content in files.items():
            archive.writestr(path, content)
    return wheel


def package_files() -> dict[str, bytes]:
    """The files of the package by their paths in the wheel."""
    source = HERE / "src"
    paths = sorted(path for path in source.rglob("*") if path.is_file() and path.suffix != ".pyc")
    files = {path.relative_to(source).as_posix(): path.read_bytes() for path in paths}
    return {**files, CHECKOUT_MODULE: CHECKOUT_TEXT.encode()}


def metadata(project: dict[str, Any]) -> str:
    """The core metadata of the package."""
    lines = [
        "Metadata-Version: 2.1",
        f"Name: {project['name']}",
        f"Version: {project['version']}",
        f"Summary: {project['description']}",
        f"Requires-Python: {project['requires-python']}",
    ]
    for extra, requirements in project["optional-dependencies"].items():
        lines.append(f"Provides-Extra: {extra}")
        for requirement in requirements:
            lines.append(f'Requires-Dist: {requirement}; extra == "{extra}"')
    return "\n".join(lines) + "\n"


def record(files: dict[str, bytes], itself: str) -> str:
    """The list of all files with their digests and sizes; the list itself has neither."""
    lines = []
    for path, content in files.items():
        digest = base64.urlsafe_b64encode(hashlib.sha256(content).digest()).rstrip(b"=").decode()
        lines.append(f"{path},sha256={digest},{len(content)}\n")
    return "".join(lines) + f"{itself},,\n"
