#!/bin/sh
# A real solver and the library mean the same. MiniZinc, asked for all solutions of models that were written by hand after tables, finds those that the
# command's `evaluate` gives of the tables: quotients and remainders at all signs, and a remainder as an index. MiniZinc reads a table as it stands as
# relational does; a translated table is evaluated under every reading.
# It needs minizinc with the solver Gecode.
set -u
cd "$(dirname "$0")/.." || exit 1
made=$(mktemp -d) || exit 1
trap 'rm -rf "$made"' EXIT
failed=0

wrong() { # TEXT
    printf 'wrong: %s\n' "$1"
    failed=1
}

# Prints MiniZinc's solutions of a model, a line each: "at", and the values of the variables in their order. MiniZinc's last line says that it found all.
found() { # MODEL
    minizinc --solver gecode --all-solutions "tests/minizinc/$1.mzn" >"$made/printed" 2>"$made/complaints" || return
    case $(tail -n 1 "$made/printed") in
        ==========) awk '/^v/ { line = line " " $3 } /^----------/ { gsub(";", "", line); print "at" line; line = "" }' "$made/printed" | sort ;;
        =====UNSATISFIABLE=====) ;;
        *) return 1 ;;
    esac
}

# Prints every assignment of a table, a line each; one empty line for a table without variables.
assignments() { # TABLE
    ./barfigol show "$1" >"$made/shown" || return
    awk '
        $1 == "VR" { low[++many] = $4; high[many] = $5 }
        function count(from, line, value) {
            if (from > many) { print substr(line, 2); return }
            for (value = low[from]; value <= high[from]; value++) count(from + 1, line " " value)
        }
        END { count(1, "") }' "$made/shown"
}

# Prints the solutions that `evaluate` gives of a table under a reading, in the same form as MiniZinc's. `--assignments` has no line for a table without
# variables.
given() { # TABLE READING
    assignments "$1" >"$made/assignments" || return
    if [ -n "$(head -n 1 "$made/assignments")" ]; then
        ./barfigol evaluate "$2" "$1" --assignments "$made/assignments" >"$made/verdicts"
        [ "$(grep -cE '; (not )?all true$' "$made/verdicts")" -eq "$(wc -l <"$made/assignments")" ] || return 1
        paste -d ';' "$made/assignments" "$made/verdicts" | sed -n 's/^\([^;]*\);.*; all true$/at \1/p' | sort
    else
        ./barfigol evaluate -q "$2" "$1"
        case $? in
            0) echo at ;;
            3) ;;
            *) return 1 ;;
        esac
    fi
}

# Whether a model and a table under a reading have the same solutions: 0 if so, 1 if not, 2 where one of them gave none.
same() { # MODEL TABLE READING
    found "$1" >"$made/found" || { cat "$made/printed" "$made/complaints"; return 2; }
    given "$2" "$3" >"$made/given" || return 2
    cmp -s "$made/found" "$made/given" || return 1
}

# A model has the solutions that a table has under each reading named, and so many.
agree() { # MODEL TABLE COUNT READING..
    model=$1 table=$2 count=$3
    shift 3
    for reading; do
        same "$model" "$table" "$reading"
        case $? in
            0) echo "$model and ${table##*/} under $reading: the same solutions" ;;
            1) wrong "$model (<) and $table (>) under $reading:"; diff "$made/found" "$made/given" ;;
            *) wrong "$model and $table under $reading: no answer" ;;
        esac
        [ "$(wc -l <"$made/found")" -eq "$count" ] || wrong "$model does not have $count solutions"
    done
}

# A model and a table that differ are told apart: the test itself can fail.
differ() { # MODEL TABLE READING
    same "$1" "$2" "$3"
    [ $? -eq 1 ] || wrong "$1 and $2 under $3 are not told apart"
}

# The translation of a table under a reading has a model's solutions, so many, under every reading.
agree_translated() { # MODEL TABLE COUNT READING..
    text=$1 original=$2 many=$3
    shift 3
    for chosen; do
        translated=$made/$chosen-${original##*/}
        ./barfigol translate "$chosen" "$original" "$translated" || wrong "$original is not translated under $chosen"
        agree "$text" "$translated" "$many" strict kleene relational
    done
}

for name in signs offset; do
    ./barfigol assemble "tests/minizinc/$name.txt" "$made/$name.table" || wrong "$name.txt is not assembled"
done

agree p7 examples/p7.table 1 strict kleene relational
agree p8 examples/p8.table 1 strict kleene relational
agree signs "$made/signs.table" 90 strict kleene relational
agree offset "$made/offset.table" 8 relational
agree_translated p8-translated examples/p8.table 1 strict kleene relational
agree_translated signs-translated "$made/signs.table" 90 strict kleene relational
agree_translated offset-kleene "$made/offset.table" 4 strict kleene
agree_translated offset-relational "$made/offset.table" 8 relational
differ p8-document-01 examples/p8.table relational
differ offset "$made/offset.table" kleene
exit "$failed"
