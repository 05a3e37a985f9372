# To be sourced, in the repository's root: what crates.txt says of a crate, whether a file is up to date, whether the libraries below a crate
# stand proved, and where the kit stands. up_to_date sets made, proved_below sets crate, stamps and all.

# Whether crates.txt lists a crate, and what it says that the crate uses.
listed() { sed 's/#.*//' crates.txt | grep -Eq "^[[:blank:]]*$1([[:blank:]]+staticlib)?[[:blank:]]*:"; }
uses() { sed 's/#.*//' crates.txt | sed -nE "s/^[[:blank:]]*$1([[:blank:]]+staticlib)?[[:blank:]]*://p"; }

# Every crate of the repository that NAME reaches, itself left out. In one process: every command of bin/ asks this.
reached() { # NAME
    awk -v name="$1" '
        { sub(/#.*/, "") }
        /:/ { split($0, part, ":"); split(part[1], word, " "); uses[word[1]] = part[2] }
        END {
            n = split(uses[name], todo, " ")
            for (i = 1; i <= n; i++) {
                if (todo[i] in found || !(todo[i] in uses)) continue
                found[todo[i]] = 1
                printf " %s", todo[i]
                m = split(uses[todo[i]], more, " ")
                for (j = 1; j <= m; j++) todo[++n] = more[j]
            }
            print ""
        }' crates.txt
}

# What the proofs of these crates read, as folders: all of a crate but its edits, what its program is run on, and what rt made.
read_by() { # NAME..
    for crate in "$@"; do
        for part in src specs proofs; do
            if [ -d "crates/$crate/$part" ]; then echo "crates/$crate/$part"; fi
        done
    done
}

# Whether FILE is there and nothing of these files and folders is newer.
up_to_date() { # FILE FROM..
    made=$1
    shift
    [ -e "$made" ] && [ -z "$(find "$@" -newer "$made" | head -n 1)" ]
}

# Whether the libraries that NAME reaches stand as one run of rt ci left them, each made after all that these crates are made from. rt's other
# commands leave a stamp beside a library, by which they know themselves whether it is up to date; of rt ci's they would prove each once more.
proved_below() { # NAME
    all=$(reached "$1")
    # shellcheck disable=SC2046,SC2086
    set -- crates.txt $(read_by $all)
    for crate in $all; do
        # the folder's own time: rt ci makes it anew, also where what it puts there was made by an earlier run
        if [ -e "crates/$crate/out/rlib/stamp" ] || ! up_to_date "crates/$crate/out/rlib/$crate.rlib" "$@"; then return 1; fi
    done
}

# The kit's folder.
kit_folder() {
    if [ -n "${RATTLE_HOME:-}" ]; then
        echo "$RATTLE_HOME"
    else
        (cd "$(dirname "$(readlink -f "$(command -v rt)")")/.." && pwd -P)
    fi
}
