#!/usr/bin/env bash
# The record program on its built-in example: each line of output is one record read to its fields and written back, or refused.
# All crates below it are proved first, so the first run takes a few minutes.
set -eu
cd "$(dirname "$0")/.."
tools/prove records
examples/run_program records <crates/records/stdin | head -n "${1:-20}"
