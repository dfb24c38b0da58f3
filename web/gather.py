#!/usr/bin/env python3
"""Puts the examples of the page into web/examples: the texts of examples/, and some that are made.

usage: web/gather.py
"""

import shutil
import subprocess
import sys
from pathlib import Path

ROOT = Path(__file__).resolve().parent.parent
TEXTS = ("*.qdimacs", "*.qcir", "*.qscript")
# Each made text with the command that writes it.
MADE = {
    "segments.qdimacs": ["tools/table.py", "examples/segments.pla"],
    "clash.qdimacs": ["tools/table.py", "examples/clash.pla"],
    "robot.qscript": ["examples/robot.py", "write"],
    "lock.qscript": ["examples/lock.py", "write"],
}


def pigeons():
    """A formula whose refutation takes a second or two."""
    sys.path.append(str(ROOT / "bench"))
    import families

    return families.pigeons(8).text()


def main():
    folder = ROOT / "web" / "examples"
    shutil.rmtree(folder, ignore_errors=True)
    folder.mkdir()
    for pattern in TEXTS:
        for text in (ROOT / "examples").glob(pattern):
            shutil.copy(text, folder)
    for name, words in MADE.items():
        made = subprocess.run([sys.executable, *words], cwd=ROOT, check=True, capture_output=True)
        (folder / name).write_bytes(made.stdout)
    (folder / "pigeons.qdimacs").write_text(pigeons())


if __name__ == "__main__":
    sys.dont_write_bytecode = True
    main()
