#!/bin/sh
# Builds the page's module and gathers its examples, where they aren't there or are older than their sources. Two checks
# may call this side by side; one of them builds, and the other waits. What is said on the way is written if it fails.
set -u

root=$(cd "$(dirname "$0")/../.." && pwd) || exit 2
said=$(mktemp) || exit 2
trap 'rm -f "$said"' EXIT
if ! flock "$root/web" make -s -C "$root" web > "$said" 2>&1; then
    tail -20 "$said"
    echo "FAILED web_module: \`make web\` failed"
    exit 1
fi
