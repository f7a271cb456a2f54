"""Builds the package as a wheel that holds the proved library, with nothing but Python: `pip install` needs no network.

The library is that of the folder which KUVTELEG_LIB names, or else of release/x86_64-linux at the top of the checkout.
"""
import base64
import hashlib
import os
import pathlib
import re
import zipfile

HERE = pathlib.Path(__file__).resolve().parent
PROJECT = (HERE / "pyproject.toml").read_text(encoding="utf-8")
LIBRARY = "libkuvteleg.so"


def _setting(name):
    return re.search(rf'^{name} = "(.*)"$', PROJECT, re.MULTILINE).group(1)


NAME, VERSION = _setting("name"), _setting("version")
METADATA = f"Metadata-Version: 2.1\nName: {NAME}\nVersion: {VERSION}\nSummary: {_setting('description')}\nRequires-Python: {_setting('requires-python')}\n"
WHEEL = "Wheel-Version: 1.0\nGenerator: kuvteleg\nRoot-Is-Purelib: false\nTag: py3-none-linux_x86_64\n"


def _library():
    folder = os.environ.get("KUVTELEG_LIB")
    path = (pathlib.Path(folder) if folder else HERE.parent.parent / "release" / "x86_64-linux") / LIBRARY
    if not path.is_file():
        raise SystemExit(f"kuvteleg: no library at {path}: build it, or let KUVTELEG_LIB name its folder")
    return path


def _row(path, data):
    digest = base64.urlsafe_b64encode(hashlib.sha256(data).digest()).rstrip(b"=").decode()
    return f"{path},sha256={digest},{len(data)}\n"


def build_wheel(wheel_directory, config_settings=None, metadata_directory=None):
    files = {f"{NAME}/{path.name}": path.read_bytes() for path in sorted((HERE / NAME).glob("*")) if path.suffix in (".py", ".typed")}
    files[f"{NAME}/{LIBRARY}"] = _library().read_bytes()
    about = f"{NAME}-{VERSION}.dist-info"
    files[f"{about}/METADATA"] = METADATA.encode()
    files[f"{about}/WHEEL"] = WHEEL.encode()
    record = "".join(_row(path, data) for path, data in files.items()) + f"{about}/RECORD,,\n"
    files[f"{about}/RECORD"] = record.encode()
    wheel = f"{NAME}-{VERSION}-py3-none-linux_x86_64.whl"
    with zipfile.ZipFile(pathlib.Path(wheel_directory) / wheel, "w", zipfile.ZIP_DEFLATED) as archive:
        for path, data in files.items():
            archive.writestr(path, data)
    return wheel


def build_sdist(sdist_directory, config_settings=None):
    raise SystemExit("kuvteleg: install from a checkout; there is no source distribution, since it would lack the library")
