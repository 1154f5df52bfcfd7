"""Makes the package's wheel for pip, with nothing but the standard library.

If ./build can make the shared object, it does so; otherwise the one in halivomue/ is taken as it is.
"""

import base64
import hashlib
import os
import re
import shutil
import subprocess
import tempfile
import zipfile

_HERE = os.path.dirname(os.path.abspath(__file__))
_PACKAGE = os.path.join(_HERE, "halivomue")
_LIBRARY = "libhalivomue.so"
_TAG = "py3-none-linux_x86_64"
_METADATA = """\
Metadata-Version: 2.1
Name: halivomue
Version: {version}
Summary: Checks and shortens call procedures, by the proved library
Requires-Python: >=3.9
"""
_WHEEL = f"""\
Wheel-Version: 1.0
Generator: halivomue
Root-Is-Purelib: false
Tag: {_TAG}
"""
# The earliest time that a zip file can hold, so that the same sources make the same wheel.
_TIME = (1980, 1, 1, 0, 0, 0)


def _version():
    with open(os.path.join(_PACKAGE, "_library.py"), encoding="utf-8") as file:
        return re.search(r'^VERSION = "(.*)"$', file.read(), re.MULTILINE)[1]


def _can_build():
    """Is there a compiler, and an archive or the toolchain to make one?"""
    script = os.path.join(_HERE, "build")
    archives = os.environ.get("HALIVOMUE_ARCHIVE_DIR") or os.path.join(_HERE, "..", "crates", "halivomue_c", "out")
    archive = os.path.exists(os.path.join(archives, "libhalivomue_c.a"))
    return os.path.exists(script) and shutil.which("gcc") and (archive or shutil.which("rt"))


def _library():
    """The bytes of the shared object."""
    path = os.path.join(_PACKAGE, _LIBRARY)
    with tempfile.TemporaryDirectory() as folder:
        if _can_build():
            path = os.path.join(folder, _LIBRARY)
            subprocess.run([os.path.join(_HERE, "build"), path], check=True)
        elif not os.path.exists(path):
            raise SystemExit(f"{path} isn't there, and can't be made here: that takes gcc, and the C archive or rt")
        with open(path, "rb") as file:
            return file.read()


def _files():
    """The names and bytes of the package's files."""
    for name in sorted(os.listdir(_PACKAGE)):
        if name.endswith((".py", ".html", ".typed")):
            with open(os.path.join(_PACKAGE, name), "rb") as file:
                yield name, file.read()
    yield _LIBRARY, _library()


def _licences():
    """The repository's licence texts, if this folder is in the repository."""
    for name in ("LICENSE", "NOTICE"):
        path = os.path.join(_HERE, "..", name)
        if os.path.exists(path):
            with open(path, "rb") as file:
                yield name, file.read()


def _add(wheel, name, data):
    """Adds a file and returns its line for the list of files."""
    entry = zipfile.ZipInfo(name, _TIME)
    entry.external_attr = (0o100755 if name.endswith(".so") else 0o100644) << 16
    wheel.writestr(entry, data, zipfile.ZIP_DEFLATED)
    digest = base64.urlsafe_b64encode(hashlib.sha256(data).digest()).rstrip(b"=").decode()
    return f"{name},sha256={digest},{len(data)}\n"


def build_wheel(wheel_directory, config_settings=None, metadata_directory=None):
    version = _version()
    info = f"halivomue-{version}.dist-info"
    name = f"halivomue-{version}-{_TAG}.whl"
    with zipfile.ZipFile(os.path.join(wheel_directory, name), "w") as wheel:
        listed = [_add(wheel, f"halivomue/{file}", data) for file, data in _files()]
        listed += [_add(wheel, f"{info}/{file}", data) for file, data in _licences()]
        listed.append(_add(wheel, f"{info}/METADATA", _METADATA.format(version=version).encode()))
        listed.append(_add(wheel, f"{info}/WHEEL", _WHEEL.encode()))
        _add(wheel, f"{info}/RECORD", "".join([*listed, f"{info}/RECORD,,\n"]).encode())
    return name


def build_sdist(sdist_directory, config_settings=None):
    raise SystemExit("there is no source form of the package alone: it is made of the whole repository")
