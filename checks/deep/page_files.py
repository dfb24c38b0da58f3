#!/usr/bin/env python3
"""Looks at the files of the page: nothing in them leads elsewhere, and every text of examples/ is on the page.

usage: page_files.py

Prints a line a case and ends with status 1 if one failed.
"""

import re
import sys
from pathlib import Path

ROOT = Path(__file__).resolve().parents[2]
WEB = ROOT / "web"
POLICY = ("default-src 'none'", "connect-src 'self'", "form-action 'none'", "base-uri 'none'")


def main():
    files = [path for path in sorted(WEB.iterdir()) if path.suffix in (".html", ".js", ".css", ".svg")]
    sources = {path.name: path.read_text() for path in files}
    page = sources["index.html"]
    policy = re.search(r'http-equiv="Content-Security-Policy" content="([^"]*)"', page)[1]
    listed = set(re.findall(r'^  \["([a-z_.]+)"', sources["examples.js"], re.MULTILINE))
    texts = {path.name for path in (ROOT / "examples").iterdir() if path.suffix in (".qdimacs", ".qcir", ".qscript")}
    # A namespace of the drawing is no address that is asked for.
    elsewhere = {name: found for name, text in sources.items()
                 if (found := [it for it in re.findall(r"https?:/[^\s\"']*", text) if "www.w3.org" not in it])}
    ids = re.findall(r'\bid="([a-z]+)"', page)
    used = {it for text in sources.values() for it in re.findall(r'\$\("([a-z]+)"\)', text)}
    faults = {
        "policy": [it for it in POLICY if it not in policy],
        "elsewhere": elsewhere,
        "inline": re.findall(r"<script>|<style>|\son[a-z]+=|\sstyle=", page),
        "examples": sorted(texts - listed),
        "elements": sorted(used - set(ids)) + [it for it in set(ids) if ids.count(it) > 1],
    }
    for name, found in faults.items():
        print(f"FAILED page_{name}: {found}" if found else f"ok page_{name}")
    return 1 if any(faults.values()) else 0


if __name__ == "__main__":
    sys.exit(main())
