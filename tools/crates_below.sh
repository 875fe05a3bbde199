#!/usr/bin/env bash
# Prints the crates of this repository that the crate CRATE stands on, by crates.txt, and it itself: each one
# after those that it stands on, as crates.txt has them.
set -eu
awk -v wanted="$1" '
    function mark(name,    needed, count, i) {
        if (!(name in needs) || name in marked)
            return
        marked[name] = 1
        count = split(needs[name], needed)
        for (i = 1; i <= count; i++)
            mark(needed[i])
    }
    /^[a-z]/ {
        name = $1
        sub(":", "", name)
        names[++last] = name
        $1 = ""
        needs[name] = $0
    }
    END {
        mark(wanted)
        for (i = 1; i <= last; i++)
            if (names[i] in marked)
                print names[i]
    }
' "$(dirname "${BASH_SOURCE[0]}")/../crates.txt"
