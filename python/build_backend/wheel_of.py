"""Packs the folder omf as a wheel, with nothing but the standard library, so that `pip install .` needs no network. If libomf.so is in the folder,
it is in the wheel too, which is then for Linux on x86-64. Nothing in it is compressed, so the same files give the same wheel with each zlib."""
import base64
import hashlib
import os
import re
import zipfile

NAME, PLAIN = "omf", "py3-none-any"
SUMMARY = "Object modules in OMF (TIS OMF 1.1): check, list, relocate, link, compare"
ABOUT = {"Metadata-Version": "2.1", "Name": NAME, "Summary": SUMMARY, "Author": "Yuccayore maintainers", "License": "MIT OR Apache-2.0", "Requires-Python": ">=3.8"}


def _version():
    with open(os.path.join(NAME, "__init__.py"), encoding="utf-8") as file:
        return re.search(r'^__version__ = "([^"]+)"', file.read(), re.M).group(1)


def _line(path, data):
    digest = base64.urlsafe_b64encode(hashlib.sha256(data).digest()).rstrip(b"=").decode()
    return f"{path},sha256={digest},{len(data)}\n"


def _files(kind):
    files = {}
    for name in ("__init__.py", "libomf.so", "py.typed"):
        path = os.path.join(NAME, name)
        if os.path.isfile(path):
            with open(path, "rb") as file:
                files[f"{NAME}/{name}"] = file.read()
    about = "".join(f"{field}: {value}\n" for field, value in {**ABOUT, "Version": _version()}.items())
    wheel = f"Wheel-Version: 1.0\nGenerator: wheel_of\nRoot-Is-Purelib: {str(kind == PLAIN).lower()}\nTag: {kind}\n"
    folder = f"{NAME}-{_version()}.dist-info"
    files[f"{folder}/METADATA"] = about.encode()
    files[f"{folder}/WHEEL"] = wheel.encode()
    record = f"{folder}/RECORD"
    files[record] = ("".join(_line(path, data) for path, data in files.items()) + f"{record},,\n").encode()
    return files


def build_wheel(wheel_directory, config_settings=None, metadata_directory=None):
    kind = "py3-none-linux_x86_64" if os.path.isfile(os.path.join(NAME, "libomf.so")) else PLAIN
    name = f"{NAME}-{_version()}-{kind}.whl"
    with zipfile.ZipFile(os.path.join(wheel_directory, name), "w", zipfile.ZIP_STORED) as wheel:
        for path, data in _files(kind).items():
            wheel.writestr(zipfile.ZipInfo(path), data)
    return name
