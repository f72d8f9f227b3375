# shellcheck shell=sh
# Runs a program as a command that has a status: read by the commands of the tree, and by those that ./install put elsewhere. The reader
# has set `name`, the command's name, which begins what it says, and `tools`, the folder of this file. A program has no exit status of its
# own; what it says on standard error, or how it died, is its failure.
: "${name:?}" "${tools:?}"

# A descriptor that is closed becomes one that fails in the same way, so that nothing opened later takes its number. What is said to a closed
# standard error is lost, and is no failure more.
stand() {
    (: 3<&0) 2>/dev/null || exec 0>/dev/null
    (: 3>&1) 2>/dev/null || exec 1</dev/null
    (: 3>&2) || exec 2>/dev/null
}

# Programs are compiled for x86-64; for another processor a kit may have an emulator.
program() { # PROGRAM [ARGUMENT..]
    machine=$(uname -m)
    if [ "$machine" = x86_64 ]; then
        "$@"
        return
    fi
    guide=$(rt doc 2>/dev/null) || {
        echo "$name: its program is for x86-64, and on $machine the Rattle kit's emulator runs it: rt has to be on the path" >&2
        return 0
    }
    kit=${guide%/*}/on/$machine/toolchain
    [ -x "$kit/bin/qemu-x86_64" ] || {
        echo "$name: its program is for x86-64, and this Rattle kit has no emulator for $machine" >&2
        return 0
    }
    "$kit/bin/qemu-x86_64" "$kit/lib/ld-linux-x86-64.so.2" --library-path "$kit/lib" "$@"
}

# The status is 1 where something was said or the command died; standard output is the command's own, and passes through nothing.
run() { # COMMAND..
    {
        "$@" 2>&1 >&3 3>&- || died "$?"
    } | told 3>&-
} 3>&1

died() { # STATUS
    # 141: by SIGPIPE, since nobody takes the answers any more.
    [ "$1" -eq 141 ] || echo "$name: ended with status $1"
}

# Passes on what the command says. A reader with more statuses than 0 and 1 declares this anew.
told() {
    status=0
    while IFS= read -r line || [ -n "$line" ]; do
        printf '%s\n' "$line" >&2 || :
        status=1
    done
    return "$status"
}

# The version and the kit: in the tree VERSION and what `rt` says, elsewhere what ./install wrote down.
version() {
    if [ -e "$tools/build.sh" ]; then
        printf '%s %s (%s)\n' "$name" "$(cat "$tools/../VERSION")" "$(rt version 2>/dev/null || echo 'no Rattle kit is on the path')"
    else
        printf '%s %s\n' "$name" "$(cat "$tools/VERSION")"
    fi
}
