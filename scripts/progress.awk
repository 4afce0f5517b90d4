# Tells from what rt has printed so far how far it is, a line for each crate, edit and program that is done.
# Set are: called, the name of the script; crates and edits, how many there are; seconds, how long it has run;
# shown, how many lines were told before, which are left out; last, where the last line alone is wanted, told before or not.

function tell(text) {
    told = called ": " seconds " s so far, " text
    if (++items > shown && !last) print told
}

function tell_crate(name, what) {
    tell("crate " ++crate " of " crates ": " name " " what)
}

# `rt ci` ends each crate with a line that names it.
/^rt: [A-Za-z0-9_]+ proved$/ { tell_crate($2, "proved") }
/^rt: [A-Za-z0-9_]+ is kept: / { tell_crate($2, "unchanged") }
/^rt: [A-Za-z0-9_]+ NOT PROVED/ { tell_crate($2, "NOT PROVED") }

# `rt lib` names a crate that it proves, and says behind that whether it did. Of a library that is built it says nothing.
/^rt: chose --jobs [0-9]+ for [A-Za-z0-9_]+$/ { begun = $NF }
/^logic=proved / && begun { tell_crate(begun, "proved"); begun = "" }
/^logic=not-proved/ && begun { tell_crate(begun, "NOT PROVED"); begun = "" }

/^rt: [A-Za-z0-9_]+: trying its must-fail edits / {
    name = $2
    sub(/:$/, "", name)
    tell("trying edits of " name)
}

# The edits' results come together, once all were tried.
/^rt: must-fail / {
    name = $3
    sub(/\.edit:$/, "", name)
    what = $4 == "refused," ? "refused" : $4 " " $5
    sub(/:$/, "", what)
    tell("edit " ++edit " of " edits ": " name " " what)
}

/^rt: [A-Za-z0-9_]+ ran[, ]/ { tell("program " $2 " ran" (/built by/ ? " as Rattle's own compiler builds it" : "")) }
/^rt: FAILED: / { tell($0) }

END {
    if (last) print items ? told : called ": " seconds " s so far, crate 0 of " crates
}
