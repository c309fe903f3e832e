#!/usr/bin/env bash
# reasons.sh PROVIDERS BOOKS tn TN: says for each provider whether a broadcast for the TN asks its Local SMS, and if not, why.
# reasons.sh PROVIDERS BOOKS event EVENTS [PLACE]: the same for the event at that place of EVENTS, from 1, or for its only one.
#   PROVIDERS, BOOKS   files in the forms of docs/LAYOUTS.md, as they stood when the broadcast started
#   TN                 ten digits, the first and the fourth 2 to 9
#   EVENTS             event records, one after the other, as replay takes them. The event is an activate, modify active, disconnect or
#                      resend: no other kind starts a broadcast. Whether it was done or refused, replay says.
# On standard output a line that says what was asked, for a resend a second one, and then a line for each of the 63 providers:
#   activate: TN 3035550100 version 1, code 303555, paired with 303556
#   provider 1: selected
#   provider 2: filters on both codes
#   provider 3: no Local SMS
#   provider 4: not present
# Where the code stands in no pair, one filter is enough: 'filter on the only code'. It writes no file.
# Status: 0 printed; 1 bad arguments or files, told on standard error with nothing printed; 2 the program cannot be built.
set -u
here=$(cd "$(dirname "$0")/.." && pwd)
if [ ! -x "$here/target/bin/reasons" ]; then
    "$here/tools/prove" reasons || exit 2
fi
said=$("$here/examples/run_program" reasons "$@") || exit 1
[[ $said == *$'\n''provider 63: '* ]] || exit 1
printf '%s\n' "$said"
