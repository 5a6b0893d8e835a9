#!/bin/sh
# Builds the proved calls as a static library and the small screen program over them, and runs it.
set -e
cd "$(dirname "$0")/../.."
(cd crates/code_c && rt lib >/dev/null)
mkdir -p target/examples
cc -O2 -Wall -Wextra -I include -o target/examples/screen examples/c/screen.c crates/code_c/out/libcode_c.a
target/examples/screen
