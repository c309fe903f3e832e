#!/usr/bin/env bash
# The gateway example: builds examples/gateway.c with the library and runs it. Status 0 only if every event came out as expected.
# The library is proved first, so the first run takes a while.
set -eu
cd "$(dirname "$0")/.."
library=$(examples/library)
mkdir -p target/examples
${CC:-cc} -std=c99 -Wall -Wextra -pedantic -Iinclude examples/gateway.c "$library" -o target/examples/gateway
exec target/examples/gateway
