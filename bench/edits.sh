#!/usr/bin/env bash
# Tries the wrong bodies that the gate passes over. Each crates/NAME/must-fail/EDIT.edit.md changes a line or two of its crate, as an
# .edit does, so that a contract no longer holds; on a copy of the crates it is tried as one, and the prover must refuse it.
#
#     bench/edits.sh [NAME..]     the edits of these crates, or those named CRATE/EDIT, or all
#         --jobs N      so many crates side by side, each in a copy of its own; 1 where it isn't said
#         --gate        also those that the gate tries, EDIT.edit
#         --table       tries nothing, and shows what is known
#         --anew        tries again what is known
#         --room DIR    where the copies and the table stand; spvdbg-edits in the folder for scratch files
#
# It ends with the rows of the table in docs/CLAIMS.md, and with 0 where each edit was refused. Stopped, it goes on at the next call
# where it was: the room keeps table.tsv, with a line for each edit (a sum of what it stands on, crate, edit, verdict, the function
# that isn't proved, the goal, seconds of a processor). The room may be removed. RT is the command in place of rt, as
# RT='nice -n 19 rt'. These edits are tried before a release, and those of a crate where its contracts changed.
exec python3 "$(dirname "$0")/edits.py" "$@"
