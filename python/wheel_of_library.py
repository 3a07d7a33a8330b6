"""Packs the package, with the shared library in it, into a wheel or an sdist: what pip asks of a build backend.

It needs nothing but Python, so that `pip install` asks no index and works on a machine without a network.
"""
import base64
import gzip
import hashlib
import io
import os
import platform
import re
import sysconfig
import tarfile
import time
import zipfile

TOP = os.path.dirname(os.path.abspath(__file__))
LIBRARY = "timeforms/libtimeforms.so"
MODULES = ["__init__", "_columns", "_errors", "_forms", "_interval", "_library", "_moments", "_recurrence", "_schedule", "_texts"]
PACKAGE = [f"{module}.py" for module in MODULES] + ["py.typed"]
FILES = [f"timeforms/{name}" for name in PACKAGE] + [LIBRARY]


# the time of all files in what is packed, so that the same sources give the same bytes; a zip has none before 1980
EPOCH = max(int(os.environ.get("SOURCE_DATE_EPOCH", "0")), 315532800)


def content_of(path):
    if path == LIBRARY and not os.path.exists(os.path.join(TOP, path)):
        raise SystemExit(f"{path} isn't there: build it first, by tools/check_c at the top of the checkout")
    with open(os.path.join(TOP, path), "rb") as file:
        return file.read()


def field(name):
    """A text of the table `project`."""
    return re.search(rf'^{name} = "(.*)"$', content_of("pyproject.toml").decode(), re.M)[1]


def metadata():
    return (
        f"Metadata-Version: 2.1\nName: {field('name')}\nVersion: {field('version')}\nSummary: {field('description')}\n"
        f"Requires-Python: {field('requires-python')}\nLicense: MIT\n"
    ).encode()


def tag():
    """The wheel's tag: manylinux of the lowest glibc whose symbols the library asks for, at least 2.5, the first that has such a tag."""
    asked = [tuple(map(int, version)) for version in re.findall(rb"GLIBC_(\d+)\.(\d+)", content_of(LIBRARY))]
    if not asked:
        return "py3-none-" + re.sub(r"[-.]", "_", sysconfig.get_platform())
    major, minor = max([(2, 5), *asked])
    return f"py3-none-manylinux_{major}_{minor}_{platform.machine()}"


def record_line(path, content):
    digest = base64.urlsafe_b64encode(hashlib.sha256(content).digest()).rstrip(b"=").decode()
    return f"{path},sha256={digest},{len(content)}\n"


def write_wheel(wheel_directory, contents):
    """Writes a wheel of these files, and answers its name."""
    name, version = field("name"), field("version")
    info = f"{name}-{version}.dist-info"
    contents[f"{info}/METADATA"] = metadata()
    contents[f"{info}/WHEEL"] = f"Wheel-Version: 1.0\nGenerator: {__name__}\nRoot-Is-Purelib: false\nTag: {tag()}\n".encode()
    record = "".join(record_line(path, content) for path, content in contents.items()) + f"{info}/RECORD,,\n"
    contents[f"{info}/RECORD"] = record.encode()
    wheel = f"{name}-{version}-{tag()}.whl"
    with zipfile.ZipFile(os.path.join(wheel_directory, wheel), "w", zipfile.ZIP_DEFLATED) as archive:
        for path, content in contents.items():
            entry = zipfile.ZipInfo(path, time.gmtime(EPOCH)[:6])
            entry.external_attr = 0o100644 << 16
            archive.writestr(entry, content, zipfile.ZIP_DEFLATED)
    return wheel


def build_wheel(wheel_directory, config_settings=None, metadata_directory=None):
    """Writes the wheel, and answers its name."""
    return write_wheel(wheel_directory, {path: content_of(path) for path in FILES})


def build_editable(wheel_directory, config_settings=None, metadata_directory=None):
    """Writes a wheel that leads to this folder, for `pip install -e`, and answers its name."""
    content_of(LIBRARY)
    return write_wheel(wheel_directory, {"timeforms.pth": f"{TOP}\n".encode()})


def build_sdist(sdist_directory, config_settings=None):
    """Writes the sources of the package, and the built library, since what builds it isn't Python; answers the name."""
    base = f"{field('name')}-{field('version')}"
    packed = io.BytesIO()
    with tarfile.open(fileobj=packed, mode="w", format=tarfile.PAX_FORMAT) as archive:
        files = {path: content_of(path) for path in [*FILES, "pyproject.toml", "wheel_of_library.py"]}
        for path, content in {**files, "PKG-INFO": metadata()}.items():
            entry = tarfile.TarInfo(f"{base}/{path}")
            entry.size, entry.mtime = len(content), EPOCH
            archive.addfile(entry, io.BytesIO(content))
    with open(os.path.join(sdist_directory, f"{base}.tar.gz"), "wb") as file:
        file.write(gzip.compress(packed.getvalue(), mtime=EPOCH))
    return f"{base}.tar.gz"
