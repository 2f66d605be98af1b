"""Builds this package with the standard library alone (PEP 517, PEP 660).

So `pip install` of this folder needs no network. `tools/wheel` writes its wheel by
`write_wheel`, too. What the wheel says of the package is in `pyproject.toml`.
"""

import ast
import base64
import hashlib
import io
import os
import pathlib
import re
import tarfile
import zipfile
from typing import Any, Dict, NamedTuple, Optional

HERE = pathlib.Path(__file__).resolve().parent
NAME = "zirkoshe"
ANYWHERE = "py3-none-any"
#: The earliest time that a zip file can store. All files in a wheel have it, so equal
#: files make equal wheels.
MOMENT = (1980, 1, 1, 0, 0, 0)

Settings = Optional[Dict[str, Any]]


class File(NamedTuple):
    """A file of a wheel: its bytes and its permissions."""

    data: bytes
    mode: int = 0o644


Files = Dict[str, File]


def project_value(key: str) -> Any:
    """Returns a text or a list of texts of the project's table."""
    text = (HERE / "pyproject.toml").read_text(encoding="utf-8")
    found = re.search(rf'(?ms)^{key} = (".*?"$|\[.*?\])', text)
    if found is None:
        raise ValueError(f"pyproject.toml has no {key}")
    return ast.literal_eval(found[1])


def project_table(name: str) -> str:
    """Returns a table of names and texts in the form of entry points."""
    text = (HERE / "pyproject.toml").read_text(encoding="utf-8")
    lines = text.partition(f"[{name}]\n")[2].partition("\n\n")[0].splitlines()
    return "".join(line.replace('"', "") + "\n" for line in lines)


def package_files() -> Files:
    """Returns the package, and the modules with its old names."""
    package = [path for path in (HERE / NAME).rglob("*") if path.is_file()]
    kept = [path for path in package if path.suffix not in (".pyc", ".pyo")]
    old = [HERE / f"{module}.py" for module in project_value("py-modules")]
    return {
        path.relative_to(HERE).as_posix(): File(path.read_bytes())
        for path in sorted([*kept, *old])
    }


def metadata_files(
    version: str, tag: str = ANYWHERE, more_scripts: str = "", summary_end: str = ""
) -> Files:
    """Returns the files that describe a wheel, without its list of files."""
    lines = ["Metadata-Version: 2.1", f"Name: {NAME}", f"Version: {version}"]
    lines.append(f"Summary: {project_value('description')}{summary_end}")
    lines += [f"Classifier: {text}" for text in project_value("classifiers")]
    lines.append(f"Requires-Python: {project_value('requires-python')}")
    lines.append("Description-Content-Type: text/markdown\n")
    readme = (HERE / "README.md").read_text(encoding="utf-8")
    scripts = project_table("project.scripts") + more_scripts
    plugins = project_table("project.entry-points.pytest11")
    pure = "true" if tag == ANYWHERE else "false"
    wheel = [f"Generator: {NAME}", f"Root-Is-Purelib: {pure}", f"Tag: {tag}", ""]
    texts = {
        "METADATA": "\n".join([*lines, readme]),
        "WHEEL": "\n".join(["Wheel-Version: 1.0", *wheel]),
        "entry_points.txt": f"[console_scripts]\n{scripts}\n[pytest11]\n{plugins}",
    }
    folder = f"{NAME}-{version}.dist-info"
    return {f"{folder}/{name}": File(text.encode()) for name, text in texts.items()}


def record_of(files: Files, folder: str) -> File:
    """Returns the list of a wheel's files."""
    rows = []
    for name, file in sorted(files.items()):
        digest = hashlib.sha256(file.data).digest()
        text = base64.urlsafe_b64encode(digest).rstrip(b"=").decode()
        rows.append(f"{name},sha256={text},{len(file.data)}\n")
    return File(("".join(rows) + f"{folder}/RECORD,,\n").encode())


def write_wheel(path: pathlib.Path, version: str, files: Files) -> None:
    """Writes a wheel. If that fails, the file of an earlier one is unchanged."""
    folder = f"{NAME}-{version}.dist-info"
    listed = {**files, f"{folder}/RECORD": record_of(files, folder)}
    new = path.with_name(path.name + ".new")
    try:
        with zipfile.ZipFile(new, "w", zipfile.ZIP_DEFLATED) as made:
            for name, file in sorted(listed.items()):
                entry = zipfile.ZipInfo(name, MOMENT)
                entry.external_attr = (0o100000 | file.mode) << 16
                entry.compress_type = zipfile.ZIP_DEFLATED
                made.writestr(entry, file.data)
        os.replace(new, path)
    finally:
        if new.exists():
            new.unlink()


def _build(folder: str, files: Files) -> str:
    """Writes the wheel of this folder's version, and returns its name."""
    version = project_value("version")
    name = f"{NAME}-{version}-{ANYWHERE}.whl"
    path = pathlib.Path(folder) / name
    write_wheel(path, version, {**files, **metadata_files(version)})
    return name


def build_wheel(
    wheel_directory: str,
    config_settings: Settings = None,
    metadata_directory: Optional[str] = None,
) -> str:
    """Builds a wheel with the package."""
    return _build(wheel_directory, package_files())


def build_editable(
    wheel_directory: str,
    config_settings: Settings = None,
    metadata_directory: Optional[str] = None,
) -> str:
    """Builds a wheel that refers to this folder (`pip install --editable`)."""
    return _build(wheel_directory, {f"{NAME}.pth": File(f"{HERE}\n".encode())})


def prepare_metadata_for_build_wheel(
    metadata_directory: str, config_settings: Settings = None
) -> str:
    """Writes what describes the package, and returns the name of its folder."""
    version = project_value("version")
    for name, file in metadata_files(version).items():
        path = pathlib.Path(metadata_directory) / name
        path.parent.mkdir(exist_ok=True)
        path.write_bytes(file.data)
    return f"{NAME}-{version}.dist-info"


def build_sdist(sdist_directory: str, config_settings: Settings = None) -> str:
    """Builds an archive of the sources."""
    version = project_value("version")
    root = f"{NAME}-{version}"
    described = metadata_files(version)[f"{root}.dist-info/METADATA"]
    sources = {path.name: path for path in HERE.iterdir() if path.is_file()}
    files = {name: File(path.read_bytes()) for name, path in sources.items()}
    files.update({**package_files(), "PKG-INFO": described})
    with tarfile.open(os.path.join(sdist_directory, f"{root}.tar.gz"), "w:gz") as made:
        for name, file in sorted(files.items()):
            entry = tarfile.TarInfo(f"{root}/{name}")
            entry.size, entry.mode = len(file.data), file.mode
            made.addfile(entry, io.BytesIO(file.data))
    return f"{root}.tar.gz"
