#!/bin/sh
# Puts the programs of this archive, their man pages and their completions below a folder: install.sh [FOLDER]. Without one it is
# /usr/local. It needs the command install of the GNU programs, as each Linux has it.
set -eu
to="${1:-/usr/local}"
cd "$(dirname "$0")"
find bin -type f -exec install -Dm755 {} "$to/{}" \;
find share -type f -exec install -Dm644 {} "$to/{}" \;
echo "docket and clerk_office are in $to/bin"
