#!/bin/sh
# Builds the tester's line tool where it is not built yet, and runs it on standard input.
here=$(cd "$(dirname "$0")" && pwd)
"$here/scripts/build.sh" wordcheck || exit 1
exec "$here/crates/wordcheck/out/wordcheck"
