"""Builds the package with Python's own library alone, so that `pip install` needs no network (PEP 517, PEP 660).

The metadata stands in pyproject.toml, the version in ribbonscarp/version.py. Where a shared library stands beside the
package's files it goes into the wheel, which is then for this platform; so does a file BUILD, which says how that library
was built. Files of a wheel have the time SOURCE_DATE_EPOCH, where that is set.
"""
from __future__ import annotations

import ast
import base64
import hashlib
import os
import pathlib
import re
import sysconfig
import tarfile
import time
import zipfile
from collections.abc import Iterator

HERE = pathlib.Path(__file__).resolve().parent
PACKAGE = HERE / "ribbonscarp"
Settings = dict[str, object] | None
Folder = str | None


def table(name: str) -> dict[str, object]:
    """A table of pyproject.toml, whose values are strings and lists of strings, which Python writes alike."""
    text = (HERE / "pyproject.toml").read_text(encoding="utf-8")
    found = re.search(rf"^\[{re.escape(name)}\]\n(.*?)(?=^\[|\Z)", text, re.M | re.S)
    assert found is not None
    entries = re.findall(r"^([\w-]+) = (.*?)(?=^[\w-]+ = |\Z)", found[1], re.M | re.S)
    return {key: ast.literal_eval(value.strip()) for key, value in entries}


def version() -> str:
    found = re.search(r'^__version__ = "(.*)"$', (PACKAGE / "version.py").read_text(encoding="utf-8"), re.M)
    assert found is not None
    return found[1]


def metadata() -> str:
    """The package's METADATA (core metadata 2.1)."""
    project = table("project")
    classifiers, keywords = project["classifiers"], project["keywords"]
    assert isinstance(classifiers, list) and isinstance(keywords, list)
    lines = ["Metadata-Version: 2.1", f"Name: {project['name']}", f"Version: {version()}"]
    lines += [f"Summary: {project['description']}", f"Requires-Python: {project['requires-python']}"]
    lines += [f"Project-URL: {label}, {url}" for label, url in table("project.urls").items()]
    lines += [f"Keywords: {','.join(keywords)}", *(f"Classifier: {one}" for one in classifiers)]
    readme = (HERE / str(project["readme"])).read_text(encoding="utf-8")
    return "\n".join([*lines, "Description-Content-Type: text/markdown", "", readme])


def tag() -> str:
    """What the wheel is for: any platform, or where it has the library inside this one."""
    platform = re.sub(r"[-.]", "_", sysconfig.get_platform()) if libraries() else "any"
    return f"py3-none-{platform}"


def libraries() -> list[pathlib.Path]:
    """The shared library beside the package's files, where it is there."""
    return sorted(PACKAGE.glob("libribbonscarp.so*"))[:1]


def package() -> Iterator[tuple[str, bytes]]:
    """The package's files: each path, and what it holds."""
    for file in [*sorted(PACKAGE.glob("*.py")), PACKAGE / "py.typed", *libraries(), *PACKAGE.glob("BUILD")]:
        yield f"{PACKAGE.name}/{file.name}", file.read_bytes()


def write_wheel(folder: str, files: list[tuple[str, bytes]]) -> str:
    """Writes a wheel of files, and gives its name."""
    info = f"ribbonscarp-{version()}.dist-info"
    plugins = "\n".join(f"{name} = {module}" for name, module in table("project.entry-points.pytest11").items())
    about = "Wheel-Version: 1.0\nGenerator: ribbonscarp\n"
    about += f"Root-Is-Purelib: {str(not libraries()).lower()}\nTag: {tag()}\n"
    files += [(f"{info}/METADATA", metadata().encode()), (f"{info}/WHEEL", about.encode())]
    files += [(f"{info}/entry_points.txt", f"[pytest11]\n{plugins}\n".encode())]
    rows = [f"{path},sha256={digest(data)},{len(data)}\n" for path, data in files]
    files += [(f"{info}/RECORD", "".join([*rows, f"{info}/RECORD,,\n"]).encode())]
    name = f"ribbonscarp-{version()}-{tag()}.whl"
    # No file of a zip is older than 1980.
    written = time.gmtime(max(int(os.environ.get("SOURCE_DATE_EPOCH", 0)), 315532800))[:6]
    with zipfile.ZipFile(pathlib.Path(folder) / name, "w", zipfile.ZIP_DEFLATED) as wheel:
        for path, data in files:
            entry = zipfile.ZipInfo(path, written)
            entry.external_attr = 0o644 << 16
            wheel.writestr(entry, data, zipfile.ZIP_DEFLATED)
    return name


def digest(data: bytes) -> str:
    return base64.urlsafe_b64encode(hashlib.sha256(data).digest()).rstrip(b"=").decode()


def build_wheel(wheel_directory: str, config_settings: Settings = None, metadata_directory: Folder = None) -> str:
    return write_wheel(wheel_directory, list(package()))


def build_editable(wheel_directory: str, config_settings: Settings = None, metadata_directory: Folder = None) -> str:
    return write_wheel(wheel_directory, [("ribbonscarp.pth", f"{HERE}\n".encode())])


def build_sdist(sdist_directory: str, config_settings: Settings = None) -> str:
    base = f"ribbonscarp-{version()}"
    about = pathlib.Path(sdist_directory) / "PKG-INFO"
    about.write_text(metadata(), encoding="utf-8")
    with tarfile.open(pathlib.Path(sdist_directory) / f"{base}.tar.gz", "w:gz") as archive:
        for name in ("pyproject.toml", "README.md", "build_backend.py"):
            archive.add(HERE / name, f"{base}/{name}")
        for path, _ in package():
            archive.add(HERE / path, f"{base}/{path}")
        archive.add(about, f"{base}/PKG-INFO")
    about.unlink()
    return f"{base}.tar.gz"
