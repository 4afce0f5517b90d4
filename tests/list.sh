#!/bin/sh
# The listing program at the edges of its input: what it writes is compared byte by byte with what is right.
# list.sh PROGRAM
set -u
cd "$(dirname "$0")/.." || exit 1
list=$1
[ -x "$list" ] || exit 1
made=$(mktemp -d) || exit 1
trap 'rm -rf "$made"' EXIT
failed=0

# Prints a format so many times.
repeat() { # COUNT FORMAT
    count=$1
    while [ "$count" -gt 0 ]; do
        printf "$2"
        count=$((count - 1))
    done
}

# Runs the program on standard input's bytes and compares.
same() { # WHAT INPUT WANTED
    if "$list" <"$2" >"$made/text" && cmp -s "$made/text" "$3"; then
        printf '%s: as it should be\n' "$1"
    else
        printf '%s: wrong, it begins and ends:\n' "$1"
        sed -n '1p;$p' "$made/text"
        failed=1
    fi
}

# The same for one line.
says() { # WHAT INPUT LINE
    echo "$3" >"$made/wanted"
    same "$1" "$2" "$made/wanted"
}

# HD and five arrays of constants: 5,000 records, which a translation copies. Its text has one line a record.
most='\000\000\000\200\000\000\000\000'
{
    printf 'HD\001\000\210\023\000\000\000\000\000\000'
    for array in 1 2 3 4; do
        printf 'AR\001\000\000\000\000\000\000\004\000\000'
        repeat 1024 "EL\\000\\000$most"
    done
    printf 'AR\001\000\000\000\000\000\202\003\000\000'
    repeat 898 "EL\\000\\000$most"
} >"$made/longest"
{
    printf 'HD 1 0 5000 0\n'
    for array in 1 2 3 4; do
        printf 'AR 1 0 0 1024\n'
        repeat 1024 'EL 0 0 -2147483648 0\n'
    done
    printf 'AR 1 0 0 898\n'
    repeat 898 'EL 0 0 -2147483648 0\n'
} >"$made/lines"
for choice in 1 2 3; do
    { printf "$choice"; cat "$made/longest"; } >"$made/input"
    same "60,000 bytes under $choice" "$made/input" "$made/lines"
done

# A constant and 4,998 constraints: one record more than there is room for.
{
    printf '2HD\001\000\210\023\000\000\000\000\000\000ND\002\000\001\000\000\000\000\000\000\000'
    repeat 4998 'CN\000\000\000\000\000\000\000\000\000\000'
} >"$made/input"
says "a translation of 60,012 bytes" "$made/input" "refused 9 0"

# Longer input is refused, however long, and not cut.
{ printf 3; cat "$made/longest"; printf 'EL\000\000\000\000\000\000\000\000\000\000'; } >"$made/input"
says "60,012 bytes" "$made/input" "refused 1 0"
{ printf 3; cat "$made/longest"; printf E; } >"$made/input"
says "60,001 bytes" "$made/input" "refused 1 0"
{ printf 3; cat "$made/longest" "$made/longest"; } >"$made/input"
says "120,000 bytes" "$made/input" "refused 1 0"

# Too little, or no digit of a choice.
: >"$made/input"
says "no input" "$made/input" "refused 7 0"
printf 1 >"$made/input"
says "no table" "$made/input" "refused 1 0"
for byte in 0 4 9 / : x '\000' '\377' '\n'; do
    { printf "$byte"; cat examples/p4.table; } >"$made/input"
    says "choice $byte" "$made/input" "refused 7 0"
done
{ printf x; cat "$made/longest" "$made/longest"; } >"$made/input"
says "no choice and too long" "$made/input" "refused 7 0"

# A refusal's record.
{ printf 1; cat examples/faulty.table; } >"$made/input"
says "a fault" "$made/input" "refused 4 4"
exit "$failed"
