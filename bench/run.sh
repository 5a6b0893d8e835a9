#!/bin/sh
# Installs the peer (libfec, a Debian package) where it is missing, builds the proved code as a static library, and prints a table of
# nanoseconds a word and ratios, both measured in one run on the same words.
set -e
cd "$(dirname "$0")/.."
[ -f /usr/include/fec.h ] || { apt-get update >/dev/null && apt-get install -y libfec-dev >/dev/null; }
(cd crates/code_c && rt lib >/dev/null)
mkdir -p target/bench
cc -O2 -o target/bench/code bench/code.c crates/code_c/out/libcode_c.a -lfec
target/bench/code
