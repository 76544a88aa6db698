"""Packs kezubimoryu.py into a wheel, as pip asks for it (PEP 517 and PEP 427), by Python's own library alone. The C
library is not in the wheel: kezubimoryu.py says how it is found. See pyproject.toml."""
import base64
import hashlib
import os
import re
import zipfile

HERE = os.path.dirname(os.path.abspath(__file__))

METADATA = """\
Metadata-Version: 2.1
Name: kezubimoryu
Version: %s
Summary: Signed Nostr events as notepack, canonical text, NSON and JSON: Kezubimoryu's C entries from Python
License: MIT
Requires-Python: >=3.8
"""

WHEEL = """\
Wheel-Version: 1.0
Generator: wheel_for_pip
Root-Is-Purelib: true
Tag: py3-none-any
"""


def _line(name, data):
    """A file's line in RECORD."""
    digest = base64.urlsafe_b64encode(hashlib.sha256(data).digest()).rstrip(b"=").decode()
    return "%s,sha256=%s,%d\n" % (name, digest, len(data))


def build_wheel(wheel_directory, config_settings=None, metadata_directory=None):
    with open(os.path.join(HERE, "kezubimoryu.py"), "rb") as file:
        source = file.read()
    version = re.search(rb'^__version__ = "(.*)"$', source, re.MULTILINE).group(1).decode()
    about = "kezubimoryu-%s.dist-info/" % version
    files = {
        "kezubimoryu.py": source,
        about + "METADATA": (METADATA % version).encode(),
        about + "WHEEL": WHEEL.encode(),
    }
    record = about + "RECORD"
    files[record] = ("".join(_line(*file) for file in files.items()) + record + ",,\n").encode()
    name = "kezubimoryu-%s-py3-none-any.whl" % version
    with zipfile.ZipFile(os.path.join(wheel_directory, name), "w", zipfile.ZIP_DEFLATED) as wheel:
        for file in files.items():
            wheel.writestr(*file)
    return name
