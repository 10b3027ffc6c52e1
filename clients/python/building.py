"""Builds the wheel of the client, with the standard library alone, for `pip install` without a network. The two libraries go into it where
`./library` built them before."""
import base64
import hashlib
import os
import sysconfig
import zipfile

HERE = os.path.dirname(os.path.realpath(__file__))
MODULE = "pansuyog.py"
LIBRARIES = [f"{HERE}/../c/out/lib{name}.so.0" for name in ("pansuyog_file", "pansuyog")]
NAME, VERSION = "pansuyog", "0.1.0"
INFO = f"{NAME}-{VERSION}.dist-info"


def _built():
    """Those libraries that are there."""
    return [path for path in LIBRARIES if os.path.exists(path)]


def _tag():
    """For which machines the wheel is: for any without a library."""
    machine = sysconfig.get_platform().replace("-", "_").replace(".", "_")
    return f"py3-none-{machine if _built() else 'any'}"


def _files():
    for path in (f"{HERE}/{MODULE}", *_built()):
        with open(path, "rb") as file:
            yield os.path.basename(path), file.read()
    metadata = f"Metadata-Version: 2.1\nName: {NAME}\nVersion: {VERSION}\nRequires-Python: >=3.8\n"
    yield f"{INFO}/METADATA", metadata.encode()
    pure = str(not _built()).lower()
    yield f"{INFO}/WHEEL", f"Wheel-Version: 1.0\nGenerator: pansuyog\nRoot-Is-Purelib: {pure}\nTag: {_tag()}\n".encode()


def _line(name, data):
    digest = base64.urlsafe_b64encode(hashlib.sha256(data).digest()).rstrip(b"=").decode()
    return f"{name},sha256={digest},{len(data)}\n"


def build_wheel(wheel_directory, config_settings=None, metadata_directory=None):
    """Writes the wheel into a folder: its name (PEP 517)."""
    name = f"{NAME}-{VERSION}-{_tag()}.whl"
    files = list(_files())
    record = "".join(_line(*it) for it in files) + f"{INFO}/RECORD,,\n"
    with zipfile.ZipFile(os.path.join(wheel_directory, name), "w") as wheel:
        for path, data in [*files, (f"{INFO}/RECORD", record.encode())]:
            wheel.writestr(zipfile.ZipInfo(path, (2026, 1, 1, 0, 0, 0)), data)
    return name
