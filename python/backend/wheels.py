"""The build of the package, which needs nothing but Python: the hooks of PEP 517 that pip calls.

A wheel has the files of `qbf/` and, where `make lib` has made it, the library: lib/libqbf.so.1 beside this folder, or
the file that QBF_LIBRARY names. Without it the package looks for an installed one when it is imported.
"""

import base64
import hashlib
import os
import re
import sysconfig
import zipfile
from pathlib import Path

HERE = Path(__file__).resolve().parent.parent
PROJECT = dict(re.findall(r'^([a-z]*) = "(.*)"$', (HERE / "pyproject.toml").read_text(), re.M))
NAME, VERSION, SUMMARY = (PROJECT[key] for key in ("name", "version", "description"))
LIBRARY = "libqbf.so.1"


def library():
    """The library that goes into the wheel, or None."""
    named = os.environ.get("QBF_LIBRARY")
    path = Path(named) if named else HERE.parent / "lib" / LIBRARY
    return path if path.is_file() else None


def metadata():
    """What pip shows of the package."""
    return f"Metadata-Version: 2.1\nName: {NAME}\nVersion: {VERSION}\nSummary: {SUMMARY}\nRequires-Python: >=3.9\n"


def tag():
    """For which Pythons and systems the wheel is: the library is for one system, the rest for each."""
    system = re.sub(r"[-.]", "_", sysconfig.get_platform()) if library() else "any"
    return f"py3-none-{system}"


def contents():
    """The files of the wheel, each with its bytes."""
    for path in sorted((HERE / "qbf").iterdir()):
        if path.suffix == ".py" or path.name == "py.typed":
            yield f"qbf/{path.name}", path.read_bytes()
    if library():
        yield f"qbf/{LIBRARY}", library().read_bytes()
    pure = str(not library()).lower()
    yield f"{NAME}-{VERSION}.dist-info/METADATA", metadata().encode()
    yield (
        f"{NAME}-{VERSION}.dist-info/WHEEL",
        f"Wheel-Version: 1.0\nGenerator: qbf\nRoot-Is-Purelib: {pure}\nTag: {tag()}\n".encode(),
    )


def build_wheel(wheel_directory, config_settings=None, metadata_directory=None):
    """Writes the wheel into a folder, and answers its name."""
    name = f"{NAME}-{VERSION}-{tag()}.whl"
    record = []
    with zipfile.ZipFile(Path(wheel_directory) / name, "w", zipfile.ZIP_DEFLATED) as wheel:
        for path, content in contents():
            wheel.writestr(path, content)
            sum = base64.urlsafe_b64encode(hashlib.sha256(content).digest()).rstrip(b"=").decode()
            record.append(f"{path},sha256={sum},{len(content)}\n")
        listing = f"{NAME}-{VERSION}.dist-info/RECORD"
        wheel.writestr(listing, "".join([*record, f"{listing},,\n"]))
    return name
