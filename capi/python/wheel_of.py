"""Makes the wheel that pip installs, as PEP 517 has it, one for `pip install --editable` (PEP 660), and the archive of the sources. The package is a
folder of files, so this needs neither setuptools nor a network, and leaves nothing beside them."""
import base64
import gzip
import hashlib
import io
import re
import tarfile
import zipfile
from pathlib import Path

HERE = Path(__file__).resolve().parent
FILES = ("midgegalena/__init__.py", "midgegalena/py.typed")
SOURCES = (*FILES, "README.md", "pyproject.toml", "wheel_of.py")


def about():
    """The texts of the table [project] in pyproject.toml."""
    table = (HERE / "pyproject.toml").read_text(encoding="utf-8").partition("[project]")[2]
    return dict(re.findall(r'^([\w-]+) = "(.*)"$', table, re.M))


def stem():
    known = about()
    return f"{known['name']}-{known['version']}"


def metadata():
    known = about()
    lines = ["Metadata-Version: 2.1", f"Name: {known['name']}", f"Version: {known['version']}", f"Summary: {known['description']}"]
    lines += [f"Requires-Python: {known['requires-python']}", "Description-Content-Type: text/markdown", ""]
    return ("\n".join(lines) + "\n" + (HERE / "README.md").read_text(encoding="utf-8")).encode()


# The time of the files says nothing, so that the same files make the same wheel and the same archive.


def make_wheel(wheel_directory, files):
    info = f"{stem()}.dist-info"
    files[f"{info}/METADATA"] = metadata()
    files[f"{info}/WHEEL"] = b"Wheel-Version: 1.0\nGenerator: wheel_of\nRoot-Is-Purelib: true\nTag: py3-none-any\n"
    record = ""
    for name, data in files.items():
        digest = base64.urlsafe_b64encode(hashlib.sha256(data).digest()).rstrip(b"=").decode()
        record += f"{name},sha256={digest},{len(data)}\n"
    files[f"{info}/RECORD"] = (record + f"{info}/RECORD,,\n").encode()
    wheel = f"{stem()}-py3-none-any.whl"
    with zipfile.ZipFile(Path(wheel_directory) / wheel, "w", zipfile.ZIP_DEFLATED) as into:
        for name, data in files.items():
            into.writestr(zipfile.ZipInfo(name), data)
    return wheel


def build_wheel(wheel_directory, config_settings=None, metadata_directory=None):
    return make_wheel(wheel_directory, {name: (HERE / name).read_bytes() for name in FILES})


def build_editable(wheel_directory, config_settings=None, metadata_directory=None):
    """Python finds the package in this folder."""
    return make_wheel(wheel_directory, {"midgegalena.pth": f"{HERE}\n".encode()})


def build_sdist(sdist_directory, config_settings=None):
    archive = f"{stem()}.tar.gz"
    files = {name: (HERE / name).read_bytes() for name in SOURCES}
    files["PKG-INFO"] = metadata()
    with gzip.GzipFile(Path(sdist_directory) / archive, "wb", mtime=0) as packed, tarfile.open(fileobj=packed, mode="w") as into:
        for name, data in files.items():
            about_it = tarfile.TarInfo(f"{stem()}/{name}")
            about_it.size = len(data)
            into.addfile(about_it, io.BytesIO(data))
    return archive
