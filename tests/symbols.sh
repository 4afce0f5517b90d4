#!/bin/sh
# What include/barfigol.h says of globals and of calls, seen in the archive: it exports the three functions and nothing else, has no data that can be written, and
# asks of others only two functions of C: memcpy, which copies memory, and memset, which fills it.
# symbols.sh ARCHIVE
set -u
[ -r "$1" ] || exit 1
nm "$1" | awk '
    NF == 2 && $1 == "U" { kind = "U"; name = $2 }
    NF == 3 { kind = $2; name = $3 }
    NF < 2 { next }
    kind ~ /^[BbCcDdGgSs]$/ { print name ": data that can be written"; bad++ }
    kind == "U" && name !~ /^mem(cpy|set)$/ { print name ": asked of others"; bad++ }
    kind == "T" { exported++; if (name !~ /^barfigol_(check|evaluate|translate)$/) { print name ": exported"; bad++ } }
    END { exit !(exported == 3 && bad == 0) }'
