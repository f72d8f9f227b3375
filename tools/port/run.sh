#!/bin/sh
# Brings a checkout of the last commit of the older Rattle to today's spelling, after the kit's port.py: run once, at the top, in that order.
#     python3 KIT/port/port.py && tools/port/run.sh
# Types are Copy, each crate has its tactics, hex is hexadecimal, eleven crates stand in a neighbour as modules (each keeps a crate of its name that passes on
# what is public), and the repository's own names are in snake case. It proves nothing, and needs git and python3 alone.
set -eu
here=$(dirname -- "$(readlink -f -- "$0")")
python3 "$here/derive.py"
python3 "$here/rename_crate.py" hex hexadecimal
python3 "$here/fold.py" --uncommitted --leave rule:bits,accept rows:band \
    slate:stepping,slate_calls,slate_shape,slate_test,slate_add sheet:slate_whole,slate_make,slate_ask
python3 "$here/respell.py" --table "${TABLE:-/dev/null}"
python3 "$here/mend_dashes.py"
