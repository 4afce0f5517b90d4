#!/bin/sh
# The pages can be read, and compared line by line: no line of theirs has more than 160 characters.
set -u
cd "$(dirname "$0")/.." || exit 1

# Prints the lines that are too long, with their file and number. A character may take several bytes.
too_long() { # FILE..
    LC_ALL=C.UTF-8 grep -HnE '^.{161,}$' "$@"
}

# The test itself tells 160 characters from 161.
made=$(mktemp -d) || exit 1
trap 'rm -rf "$made"' EXIT
awk 'BEGIN { for (i = 0; i < 160; i++) printf "≤"; print "" }' >"$made/longest"
sed 's/$/x/' "$made/longest" >"$made/longer"
if too_long "$made/longest" || ! too_long "$made/longer" >/dev/null; then
    echo "a line's characters are not counted right"
    exit 1
fi

! too_long README.md docs/*.md
