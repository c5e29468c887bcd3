"""Makes a wheel of witness and its plugin for pytest, as pip asks for it, with nothing but Python's own library."""

import base64
import hashlib
import os
import re
import zipfile

MODULES = ("witness.py", "pytest_witness.py")
NAME = "lanyardyuzu_witness"
METADATA = """Metadata-Version: 2.1
Name: lanyardyuzu-witness
Version: %s
Summary: Tells the recorder what a program in Python does with its locks, with a plugin for pytest
Requires-Python: >=3.8
"""
WHEEL = """Wheel-Version: 1.0
Generator: build_wheel
Root-Is-Purelib: true
Tag: py3-none-any
"""
ENTRY_POINTS = """[pytest11]
witness = pytest_witness
"""


def _read(name):
    with open(os.path.join(os.path.dirname(os.path.abspath(__file__)), name), encoding="utf-8") as file:
        return file.read()


def _parts():
    """The files of the wheel, by their names."""
    version = re.search('^__version__ = "(.*)"$', _read("witness.py"), re.M)[1]
    folder = "%s-%s.dist-info/" % (NAME, version)
    parts = {name: _read(name) for name in MODULES}
    parts[folder + "METADATA"] = METADATA % version
    parts[folder + "WHEEL"] = WHEEL
    parts[folder + "entry_points.txt"] = ENTRY_POINTS
    return version, folder, parts


def build_wheel(wheel_directory, config_settings=None, metadata_directory=None):
    version, folder, parts = _parts()
    name = "%s-%s-py3-none-any.whl" % (NAME, version)
    record = ""
    with zipfile.ZipFile(os.path.join(wheel_directory, name), "w", zipfile.ZIP_DEFLATED) as wheel:
        for path, text in parts.items():
            bytes_of = text.encode()
            digest = base64.urlsafe_b64encode(hashlib.sha256(bytes_of).digest()).rstrip(b"=").decode()
            record += "%s,sha256=%s,%d\n" % (path, digest, len(bytes_of))
            wheel.writestr(path, bytes_of)
        wheel.writestr(folder + "RECORD", record + folder + "RECORD,,\n")
    return name
