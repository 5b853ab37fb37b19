"""Builds the package for pip, with the standard library alone: `pip install ./python` fetches
nothing.

It has the hooks of PEP 517 that pip calls. A wheel is a zip file of the package and of a folder
`.dist-info` with METADATA, WHEEL and RECORD."""
import base64
import hashlib
import io
import tarfile
import tomllib
import zipfile
from pathlib import Path

HERE = Path(__file__).resolve().parent
WHEEL = "Wheel-Version: 1.0\nGenerator: robus\nRoot-Is-Purelib: true\nTag: py3-none-any\n"


def project() -> dict:
    """The table [project] of pyproject.toml."""
    return tomllib.loads((HERE / "pyproject.toml").read_text(encoding="utf-8"))["project"]


def metadata() -> str:
    """What METADATA says."""
    it = project()
    return (f"Metadata-Version: 2.1\nName: {it['name']}\nVersion: {it['version']}\n"
            f"Summary: {it['description']}\nRequires-Python: {it['requires-python']}\n")


def release() -> str:
    """The name and the version, as files are named by them."""
    return f"{project()['name']}-{project()['version']}"


def files() -> dict:
    """The files of the package, by their names in a wheel."""
    kinds = (".py", ".typed", ".html", ".css", ".js")
    found = sorted(it for it in (HERE / "robus").rglob("*") if it.suffix in kinds)
    return {str(it.relative_to(HERE)): it.read_bytes() for it in found}


def build_wheel(wheel_directory, config_settings=None, metadata_directory=None) -> str:
    """Writes the wheel into a folder; its name."""
    info, name = f"{release()}.dist-info", f"{release()}-py3-none-any.whl"
    parts = {**files(), f"{info}/METADATA": metadata().encode(), f"{info}/WHEEL": WHEEL.encode()}
    record = []
    with zipfile.ZipFile(Path(wheel_directory, name), "w", zipfile.ZIP_DEFLATED) as wheel:
        for path, text in parts.items():
            wheel.writestr(path, text)
            digest = base64.urlsafe_b64encode(hashlib.sha256(text).digest()).rstrip(b"=").decode()
            record.append(f"{path},sha256={digest},{len(text)}\n")
        wheel.writestr(f"{info}/RECORD", "".join(record) + f"{info}/RECORD,,\n")
    return name


def build_sdist(sdist_directory, config_settings=None) -> str:
    """Writes the archive of the sources into a folder; its name."""
    parts = {**files(), "PKG-INFO": metadata().encode()}
    for path in ("pyproject.toml", "backend.py"):
        parts[path] = (HERE / path).read_bytes()
    name = f"{release()}.tar.gz"
    with tarfile.open(Path(sdist_directory, name), "w:gz", format=tarfile.PAX_FORMAT) as archive:
        for path, text in parts.items():
            entry = tarfile.TarInfo(f"{release()}/{path}")
            entry.size = len(text)
            archive.addfile(entry, io.BytesIO(text))
    return name
