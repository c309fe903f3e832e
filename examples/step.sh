#!/usr/bin/env bash
# The step program on document 01's nine records: a line for each event (place, outcome, message count), then one for each version (TN,
# number, status, size of failed). All crates below it are proved first, a line for each on standard error, so the first run
# takes a while.
set -eu
cd "$(dirname "$0")/.."
tools/prove step
examples/run_program step <crates/step/stdin
