# shellcheck shell=sh
# Builds a program of the tree where a file is newer than it, which proves it: read by the commands of the tree after tools/run.sh. The
# reader has set `name`, the program's name, and `here`, the tree.

: "${name:?}" "${here:?}"
made=$here/crates/$name/out/$name
built=$here/target/$name.built

# The crates that the program is made of, itself among them.
crates() {
    awk -v name="$name" '
        { sub(/#.*/, ""); i = index($0, ":") }
        i { crate = substr($0, 1, i - 1); sub(/[ \t].*/, "", crate); needs[crate] = substr($0, i + 1) }
        function reach(crate,    part, n, i) {
            if (!(crate in needs) || crate in seen) return
            seen[crate] = 1
            count++
            n = split(needs[crate], part, " ")
            for (i = 1; i <= n; i++) reach(part[i])
        }
        END { reach(name); print count + 0 }' "$here/crates.txt"
}

# Says each crate that is proved, of how many at most, and keeps the whole account; fails where the account does not come to the program's run.
progress() { # CRATES
    done=0 crate=$name well=false
    while IFS= read -r line; do
        printf '%s\n' "$line" >&4
        case $line in
        'rt: chose --jobs '*' for '*) crate=${line##* } ;;
        'crate '*': modules loaded='*) crate=${line#crate } crate=${crate%%:*} ;;
        'logic=proved '*)
            done=$((done + 1))
            echo "$name: proved $crate, $done of at most $1" >&2
            ;;
        "rt: running out/$name;"*) well=true ;;
        esac
    done 4>"$built.log"
    $well
}

# The program is run once, on no input, as `rt run` does with what it built.
build() {
    mkdir -p "$here/target"
    # What changes while the build runs is newer than this.
    : >"$built.$$"
    count=$(crates)
    echo "$name: proving its $count crates, but for those that are proved already; from nothing that takes some minutes" >&2
    if ! (cd "$here/crates/$name" && rt run) </dev/null 2>&1 | progress "$count" || [ ! -x "$made" ]; then
        cat "$built.log" >&2
        rm -f "$built.$$"
        return 1
    fi
    mv "$built.$$" "$built"
}

# Builds it where that is needed. What the kit makes in the folders out of the crates is no file of theirs.
ready() {
    if [ ! -x "$made" ] || [ ! -e "$built" ] ||
        [ -n "$(find "$here/crates.txt" "$here"/crates/*/* -name out -prune -o -newer "$built" -print | head -n 1)" ]; then
        build
    fi
}
