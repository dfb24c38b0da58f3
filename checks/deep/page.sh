#!/bin/sh
# Drives the page of web/ in a headless browser, and compares what it says with what the built program writes: page.py
# says how. Without a browser only the page's files are looked at, and a line says so.
# Usage: checks/deep/page.sh PROGRAM [FOLDER]. FOLDER keeps pictures of the page, out/page without it. Prints a line a
# case, and ends with status 1 if one failed. This needs Python 3, and Chromium for all but the first cases.
set -u

if [ $# -lt 1 ] || [ $# -gt 2 ]; then
    echo "usage: $0 PROGRAM [FOLDER]" >&2
    exit 2
fi
root=$(cd "$(dirname "$0")/../.." && pwd) || exit 2
program=$(realpath "$1") || exit 2
shots=${2:-$root/out/page}
export PYTHONDONTWRITEBYTECODE=1

python3 "$root/checks/deep/page_files.py"
failures=$?
if ! python3 -c 'import sys; sys.path.append(sys.argv[1]); import browser; sys.exit(not browser.found())' \
    "$root/checks/deep"; then
    echo "no chromium: the page isn't tried in a browser"
    exit $failures
fi
"$root/checks/deep/module.sh" || exit 1
python3 "$root/checks/deep/page.py" "$program" "$shots" || failures=1
exit $failures
