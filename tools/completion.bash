# Completion in bash for desk, vet and many. ./install puts it where bash-completion finds it; in the tree: . tools/completion.bash
# shellcheck shell=bash

# The words of a list, and the files, that begin as the word under the cursor does.
_branchmetal_offer() { # WORDS
    local word=${COMP_WORDS[COMP_CWORD]}
    mapfile -t COMPREPLY < <(compgen -W "$1" -- "$word"; [[ $word == -* ]] || compgen -f -- "$word")
}

_branchmetal_desk() {
    case $COMP_CWORD in
    1) _branchmetal_offer '--help --version' ;;
    *) _branchmetal_offer '' ;;
    esac
}

_branchmetal_many() {
    case $COMP_CWORD in
    1) _branchmetal_offer '--help --version' ;;
    *) _branchmetal_offer '-j --block --tmpdir --sshlogin --joblog' ;;
    esac
}

_branchmetal_vet() {
    case $COMP_CWORD in
    1) _branchmetal_offer '--json smt frames check --help --version' ;;
    *) _branchmetal_offer '' ;;
    esac
}

complete -o filenames -F _branchmetal_desk desk
complete -o filenames -F _branchmetal_many many
complete -o filenames -F _branchmetal_vet vet
