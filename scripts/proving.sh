# Sourced by report and library, in the repository's folder: runs rt and tells of its progress on standard error.

# The crates to be proved for NAME, each after those that it rests on: its own, and those of crates.txt below it.
crates_for() { # NAME
    awk -v wanted="$1" '
        function visit(name,    parts, count, i) {
            if (!(name in needs) || name in seen) return
            seen[name] = 1
            count = split(needs[name], parts, " ")
            for (i = 1; i <= count; i++) visit(parts[i])
            print name
        }
        { sub(/#.*/, "") }
        /:/ { split($0, sides, ":"); split(sides[1], words, " "); needs[words[1]] = sides[2] }
        END { visit(wanted) }' crates.txt
}

# Whether a file was written after all sources were last changed. What rt makes lies in crates/NAME/out.
is_new() { # FILE
    [ -e "$1" ] && [ ! crates.txt -nt "$1" ] && [ -z "$(find crates -mindepth 2 -name out -prune -o -newer "$1" -print -quit)" ]
}

# Reads what rt prints and tells of each crate that it has proved, by its place among those to be proved; rt is silent of crates
# that it has proved before.
follow() { # LABEL NAME
    local line crate="" place all
    local -a crates
    local checked='^crate ([A-Za-z0-9_]+): modules '
    readarray -t crates < <(crates_for "$2")
    all=${#crates[@]}
    while IFS= read -r line; do
        if [[ $line =~ $checked ]]; then crate=${BASH_REMATCH[1]}; fi
        [[ $line == "logic=proved"* && -n $crate ]] || continue
        for ((place = 1; place <= all; place++)); do
            [ "${crates[place - 1]}" = "$crate" ] && echo "$1: $place of $all crates: $crate is proved" >&2
        done
        crate=""
    done
}

# Tells why rt failed: the functions that are not proved first, then the first errors and what rt says of the crates.
show_failure() { # LOG
    {
        grep -E '^(fn|struct|enum) ' "$1" | grep -v ': proved$' | head -n 10
        grep -E '^[^ ]+: error' "$1" | head -n 5
        grep -E '^rt: the library .* did not build' "$1" || tail -n 20 "$1"
    } | cut -c 1-300 >&2
}

# Waits until no other run proves; held until the shell that calls it ends.
one_at_a_time() { # LABEL
    exec 9<crates.txt
    flock -n 9 && return
    echo "$1: another run is proving; waiting for it" >&2
    flock 9
}

# Runs `rt KIND` in the folder of the crate NAME, with its output in LOG, and puts what it built (out/BUILT) in its place, FILE.
prove() { # LABEL KIND NAME LOG BUILT FILE
    local label=$1 kind=$2 name=$3 log=$4 built=crates/$3/out/$5 file=$6 part
    local -a status
    command -v rt >/dev/null || { echo "$label: the Rattle kit's command rt is not on the path" >&2; return 2; }
    { : >"$log"; } 2>/dev/null || { echo "$label: the log '$log' cannot be written" >&2; return 2; }
    (cd "crates/$name" && exec rt "$kind" </dev/null 2>&1 9<&-) | tee "$log" | follow "$label" "$name"
    status=("${PIPESTATUS[@]}")
    [ "${status[1]}" -eq 0 ] || { echo "$label: the log '$log' cannot be written" >&2; return 2; }
    if [ "${status[0]}" -ne 0 ]; then
        show_failure "$log"
        echo "$label: $name is not proved; $log has the whole output" >&2
        return 1
    fi
    # Whole, as another run may be using the one that is there.
    part=$(mktemp "$(dirname "$file")/part.XXXXXX") && cp "$built" "$part" && chmod 755 "$part" && mv "$part" "$file" && return
    rm -f "${part:-}"
    echo "$label: '$file' cannot be written" >&2
    return 2
}
