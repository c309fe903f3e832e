#!/usr/bin/env bash
# replay.sh [--strict] [--from N] TABLE PROVIDERS BOOKS R EVENTS OUTCOMES MESSAGES TABLE-AFTER: the replay program, with a status.
# replay.sh --check TABLE PROVIDERS BOOKS: checks the three files alone and writes none.
#   TABLE, PROVIDERS, BOOKS   files in the forms of docs/LAYOUTS.md; R is a digit, 0 to 7
#   EVENTS                    event records, one after the other; a part of a record at the end is one more event, with outcome 2
#   OUTCOMES                  a line for each event: place from 1, outcome, message count; '-' is standard output
#   MESSAGES                  the messages of all events, 24 bytes each
#   TABLE-AFTER               the table after the last event; it may be TABLE itself
#   --from N                  starts at the event at place N, from 1 to one behind the last; the earlier ones are passed over. EVENTS is a file
#   --strict                  a status of its own where some events were refused
# Status: 0 all replayed, or all sound; 1 an error; 2 the program cannot be built; 3 with --strict: all replayed, some refused.
#
# An output is written to NAME.part beside its name. When all events are replayed and all outputs are whole on the disk, they get their
# names: OUTCOMES, MESSAGES, and last TABLE-AFTER. After an error the files of before stand, and no part is left. After a kill parts are
# left: the next replay refuses to write over them, and says so. An output that is an input or another output, by whatever name or link,
# is refused before anything is written; so is one that is there and no file (a folder, a device, a pipe) or a symbolic link.
#
# On standard error: 'N events, P percent' after every 10,000 events (without a share where EVENTS is a pipe), and at the end 'done N',
# 'refused N with NUMBER: words' for each outcome that occurred, 'rows used: N of M' and 'N events replayed'. A check ends with
# 'N of M rows used, sound'. Errors, and the warning of a part of a record at the end, begin with 'replay: '.
#
# The program is proved and built first where target/bin/replay is missing; after a change of the sources `tools/prove replay` builds it anew.
set -u
here=$(cd "$(dirname "$0")/.." && pwd)

refuse() {
    printf 'replay: %s\n' "$1" >&2
    exit 1
}

# Whether two names are one file: there already, or the same name in the same folder.
one_file() {
    [ "$1" -ef "$2" ] || { [ "$(basename -- "$1")" = "$(basename -- "$2")" ] && [ "$(dirname -- "$1")" -ef "$(dirname -- "$2")" ]; }
}

# Refuses the output $1, named $2, if it is the argument $3, named $4.
apart() {
    [ -n "$2" ] && [ -n "$4" ] || return 0
    if one_file "$2" "$4" && [ "$1 $3" != 'TABLE-AFTER TABLE' ]; then
        refuse "$4: $1 is the same file as $3"
    fi
    if one_file "$2.part" "$4"; then
        refuse "$4: $1 is written here first, and it is $3"
    fi
}

# Refuses outputs that are not files of their own; the arguments are those of a replay.
outputs_own() {
    local titles=(TABLE PROVIDERS BOOKS R EVENTS OUTCOMES MESSAGES TABLE-AFTER) names=("$@") out other
    for out in 5 6 7; do
        [ "$out ${names[out]}" = '5 -' ] && continue
        for other in 0 1 2 4 5 6 7; do
            [ "$out" = "$other" ] || [ "$other ${names[other]}" = '5 -' ] || apart "${titles[out]}" "${names[out]}" "${titles[other]}" "${names[other]}"
        done
        [ ! -L "${names[out]}" ] || refuse "${names[out]}: ${titles[out]} is a symbolic link: name the file itself"
        [ ! -e "${names[out]}" ] || [ -f "${names[out]}" ] || refuse "${names[out]}: ${titles[out]} is there and no file"
    done
}

strict=0
options=()
while [ $# -gt 0 ]; do
    case $1 in
    --strict) strict=1 ;;
    --from) options+=("$1" "${2-}"); [ $# -lt 2 ] || shift ;;
    --*) options+=("$1") ;;
    *) break ;;
    esac
    shift
done
if [ $# -eq 8 ]; then
    outputs_own "$@"
fi
if [ ! -x "$here/target/bin/replay" ]; then
    "$here/tools/prove" replay || exit 2
fi
said=$(mktemp) || exit 1
trap 'rm -f "$said"' EXIT
{ "$here/examples/run_program" replay ${options[@]+"${options[@]}"} "$@" 2>&1 >&3 3>&- | tee "$said" >&2; } 3>&1
last=$(tail -n 1 "$said")
if [[ $last =~ ^[0-9]+\ of\ [0-9]+\ rows\ used,\ sound$ ]]; then
    exit 0
fi
[[ $last =~ ^[0-9]+\ events\ replayed$ ]] || exit 1
if [ "$strict" = 1 ] && grep -q '^refused [0-9]' "$said"; then
    exit 3
fi
