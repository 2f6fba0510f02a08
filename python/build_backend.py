"""Builds the wheel of this package with the standard library alone, so that `pip install` needs no
network (PEP 517). What pyproject.toml says is all that it knows.
"""
import base64
import hashlib
import tarfile
import tomllib
import zipfile
from collections.abc import Iterator
from pathlib import Path
from typing import Any

HERE = Path(__file__).resolve().parent
SOURCES = HERE / "src"
WHEEL = "Wheel-Version: 1.0\nGenerator: build_backend\nRoot-Is-Purelib: true\nTag: py3-none-any\n"


def project() -> dict[str, Any]:
    return tomllib.loads((HERE / "pyproject.toml").read_text(encoding="utf-8"))["project"]


def metadata() -> str:
    said = project()
    return (
        "Metadata-Version: 2.1\n"
        f"Name: {said['name']}\n"
        f"Version: {said['version']}\n"
        f"Summary: {said['description']}\n"
        f"License: {said['license']['text']}\n"
        f"Requires-Python: {said['requires-python']}\n"
        "Description-Content-Type: text/markdown\n"
        f"\n{(HERE / said['readme']).read_text(encoding='utf-8')}"
    )


def entry_points() -> str:
    lines = (f"{name} = {place}\n" for name, place in project()["scripts"].items())
    return f"[console_scripts]\n{''.join(lines)}"


def sources() -> Iterator[Path]:
    """The files of the package."""
    for path in sorted(SOURCES.rglob("*")):
        if path.is_file() and "__pycache__" not in path.parts:
            yield path


def write_wheel(folder: str, files: dict[str, bytes]) -> str:
    """Writes a wheel with these files, by their places in it, and returns its name."""
    said = project()
    stem = f"{said['name']}-{said['version']}"
    about = f"{stem}.dist-info"
    files = files | {
        f"{about}/METADATA": metadata().encode(),
        f"{about}/WHEEL": WHEEL.encode(),
        f"{about}/entry_points.txt": entry_points().encode(),
    }
    record = "".join(f"{place},{digest(data)},{len(data)}\n" for place, data in files.items())
    files[f"{about}/RECORD"] = f"{record}{about}/RECORD,,\n".encode()
    name = f"{stem}-py3-none-any.whl"
    with zipfile.ZipFile(Path(folder, name), "w", zipfile.ZIP_DEFLATED) as wheel:
        for place, data in files.items():
            wheel.writestr(place, data)
    return name


def digest(data: bytes) -> str:
    found = base64.urlsafe_b64encode(hashlib.sha256(data).digest()).rstrip(b"=")
    return f"sha256={found.decode()}"


# The hooks of PEP 517 and PEP 660, by the names that these give them.


def build_wheel(wheel_directory: str, config_settings=None, metadata_directory=None) -> str:
    files = {path.relative_to(SOURCES).as_posix(): path.read_bytes() for path in sources()}
    return write_wheel(wheel_directory, files)


def build_editable(wheel_directory: str, config_settings=None, metadata_directory=None) -> str:
    return write_wheel(wheel_directory, {f"{project()['name']}.pth": f"{SOURCES}\n".encode()})


def build_sdist(sdist_directory: str, config_settings=None) -> str:
    said = project()
    stem = f"{said['name']}-{said['version']}"
    own = [HERE / name for name in ("pyproject.toml", "build_backend.py", said["readme"])]
    with tarfile.open(Path(sdist_directory, f"{stem}.tar.gz"), "w:gz") as archive:
        for path in [*own, *sources()]:
            archive.add(path, f"{stem}/{path.relative_to(HERE).as_posix()}")
    return f"{stem}.tar.gz"
