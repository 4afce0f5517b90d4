#!/bin/sh
# The list on docs/DEFINITIONS.md is what the public promises rest on, its size is what the page says, and each other specs file says that it is internal.
set -u
cd "$(dirname "$0")/../crates" || exit 1
page=../docs/DEFINITIONS.md
work=$(mktemp -d) || exit 1
trap 'rm -rf "$work"' EXIT

# The specs files that specs files use, of their own crate and of others. Those of the toolchain's libraries are left out.
used() { # FILE..
    cat "$@" | sed -nE 's/^(pub )?use Rattle\.([a-z]+)\.specs\.([A-Z][A-Za-z]*)([. ].*)?$/\2\/specs\/\3.antt/p' | grep -v '^std/'
}

# What the page of the demands and the public contracts cite, directly or through others; and document 000's rules beside them.
reach() {
    printf '%s/specs/Results.antt\n' verdict evaluation translation barfigol >"$work/reached"
    echo demands/specs/Demands.antt >>"$work/reached"
    while :; do
        # The names of the files have no spaces.
        { cat "$work/reached"; used $(cat "$work/reached"); } | sort -u >"$work/more"
        cmp -s "$work/reached" "$work/more" && break
        mv "$work/more" "$work/reached"
    done
    echo language/specs/Quantified.antt >>"$work/reached"
    sort -u "$work/reached"
}

sed -n '/^cd crates && wc -l/,/^```/p' "$page" | grep -oE '[a-z]+/specs/[A-Za-z]+\.antt' | sort >"$work/listed"
reach >"$work/cited"
if ! diff "$work/listed" "$work/cited"; then
    echo "the page lists other files (<) than the promises cite (>)"
    exit 1
fi

lines=$(cat $(cat "$work/listed") | wc -l)
if ! grep -q "lines, $lines in all" "$page"; then
    echo "the files listed have $lines lines, and the page says otherwise"
    exit 1
fi

for file in */specs/*.antt; do
    case $file in */Lib.antt) continue ;; esac
    if grep -qx "$file" "$work/listed"; then
        ! grep -q '^-- Internal:' "$file" || { echo "$file is cited, and says that it is internal"; exit 1; }
    else
        grep -q '^-- Internal:' "$file" || { echo "$file does not say that it is internal"; exit 1; }
    fi
done
