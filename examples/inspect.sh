#!/usr/bin/env bash
# inspect.sh TABLE PROVIDERS BOOKS: says in words where the three files are unsound, or that they are sound. It writes no file.
#   TABLE, PROVIDERS, BOOKS   files in the forms of docs/LAYOUTS.md
# On standard output a line for what is at fault in provider list or books, and a line for what is at fault in the table, the first of each:
#   filter 1 (5, 303555): provider 5 is absent
#   row 17: TN 3035550100 version 2: live in status 7
# or, where nothing is, 'sound: N of M rows used'. docs/FAULTS.md has all clauses and their order.
# Status: 0 all sound; 1 unsound, or a file cannot be read (told on standard error); 2 the program cannot be built.
set -u
here=$(cd "$(dirname "$0")/.." && pwd)
if [ ! -x "$here/target/bin/inspect" ]; then
    "$here/tools/prove" inspect || exit 2
fi
said=$("$here/examples/run_program" inspect "$@") || exit 1
[ -z "$said" ] || printf '%s\n' "$said"
[[ $said =~ ^sound:\ [0-9]+\ of\ [0-9]+\ rows\ used$ ]]
