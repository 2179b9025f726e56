"""Puts the wheel together: the Python package with the library for this processor in it. tools/wheel and pip call it.

The same sources give the same wheel, byte for byte.
"""

import base64
import hashlib
import re
import subprocess
import sys
import sysconfig
import zipfile
from pathlib import Path

ROOT = Path(__file__).resolve().parent.parent
PACKAGE = ROOT / "python" / "hraunlik"
MADE = ROOT / "target" / "host"
EARLIEST = (1980, 1, 1, 0, 0, 0)  # the first date that a zip file can tell

METADATA = """\
Metadata-Version: 2.1
Name: hraunlik
Version: {version}
Summary: Treebank files in the NeGra export format, read by a proved library
License: MIT
Requires-Python: >=3.8
"""
WHEEL = """\
Wheel-Version: 1.0
Generator: hraunlik
Root-Is-Purelib: false
Tag: {tag}
"""
COMMAND = """\
[console_scripts]
hraunlik = hraunlik_start:main
"""


def version():
    return re.search(r'^VERSION = "(.*)"$', (PACKAGE / "version.py").read_text(), re.MULTILINE)[1]


def contents(about, tag):
    """Name and bytes of each file of the wheel but the last."""
    for path in sorted(PACKAGE.iterdir()):
        if path.is_file():
            yield f"hraunlik/{path.name}", path.read_bytes()
    for path in sorted((ROOT / "examples" / "gallery").iterdir()):
        yield f"hraunlik/gallery/{path.name}", path.read_bytes()
    yield "hraunlik_start.py", (ROOT / "python" / "hraunlik_start.py").read_bytes()
    yield "hraunlik/hraunlik.h", (ROOT / "include" / "hraunlik.h").read_bytes()
    for name in ("libhraunlik.so", "libhraunlik.sources"):
        yield f"hraunlik/{name}", (MADE / name).read_bytes()
    yield f"{about}/METADATA", METADATA.format(version=version()).encode()
    yield f"{about}/WHEEL", WHEEL.format(tag=tag).encode()
    yield f"{about}/entry_points.txt", COMMAND.encode()
    yield f"{about}/licenses/LICENSE", (ROOT / "LICENSE").read_bytes()


def recorded(name, data):
    """A line of RECORD: the name, the digest, the length."""
    digest = base64.urlsafe_b64encode(hashlib.sha256(data).digest()).rstrip(b"=").decode()
    return f"{name},sha256={digest},{len(data)}\n"


def write(path, about, tag):
    record = ""
    with zipfile.ZipFile(path, "w", zipfile.ZIP_DEFLATED) as wheel:
        for name, data in contents(about, tag):
            put(wheel, name, data)
            record += recorded(name, data)
        put(wheel, f"{about}/RECORD", f"{record}{about}/RECORD,,\n".encode())


def put(wheel, name, data):
    entry = zipfile.ZipInfo(name, EARLIEST)
    entry.external_attr = (0o100755 if name.endswith(".so") else 0o100644) << 16
    entry.compress_type = zipfile.ZIP_DEFLATED
    wheel.writestr(entry, data)


def build_wheel(wheel_directory, config_settings=None, metadata_directory=None):
    """What pip asks for: the name of a wheel that lies in a folder. The library is made first, unless it is."""
    if subprocess.run([ROOT / "tools" / "libraries"], stdout=sys.stderr).returncode != 0:
        sys.exit("the library couldn't be made; pip install ./python needs a clone where ./hraunlik works")
    tag = "py3-none-" + re.sub(r"[-.]", "_", sysconfig.get_platform())
    made = Path(wheel_directory) / f"hraunlik-{version()}-{tag}.whl"
    made.parent.mkdir(exist_ok=True)
    new = made.with_suffix(".new")
    write(new, f"hraunlik-{version()}.dist-info", tag)
    new.replace(made)
    return made.name
