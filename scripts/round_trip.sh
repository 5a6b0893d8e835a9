#!/bin/sh
# Sends a transport stream through send and receive with 4, 5 and 6 bits to a symbol, and says whether the packets that come back are those
# that were sent. The stream is the file named (packets of 188 bytes that begin with 47h), or one that ffmpeg makes.
# Usage: scripts/round_trip.sh [FILE]
here=$(cd "$(dirname "$0")/.." && pwd)
"$here/scripts/build.sh" send receive || exit 1
work=$(mktemp -d) || exit 1
trap 'rm -rf "$work"' EXIT

if [ $# -gt 0 ]; then
    cp "$1" "$work/sent.ts" || exit 1
elif command -v ffmpeg >/dev/null; then
    ffmpeg -loglevel error -f lavfi -i testsrc=size=320x240:rate=25 -f lavfi -i sine=frequency=440 -t 4 \
        -c:v mpeg2video -c:a mp2 -f mpegts "$work/sent.ts" || exit 1
else
    echo "ffmpeg is not installed (Debian: apt-get install ffmpeg), and no file is named" >&2
    exit 1
fi

# The number that the account has under a name.
number() {
    sed -n "s/^$1 //p" "$2"
}

status=0
for m in 4 5 6; do
    "$here/crates/send/out/send" "$m" <"$work/sent.ts" 2>"$work/send.account" >"$work/symbols" || exit 1
    "$here/crates/receive/out/receive" "$m" <"$work/symbols" 2>"$work/receive.account" >"$work/received.ts" || exit 1
    sent=$(($(number packets "$work/send.account") - $(number refused "$work/send.account")))
    received=$(number packets "$work/receive.account")
    first=$(number first "$work/receive.account")
    if [ "$first" = none ]; then
        echo "$m bits: no packet of $sent came back"
        status=1
    elif tail -c +$((188 * first + 1)) "$work/sent.ts" | head -c $((188 * received)) | cmp -s - "$work/received.ts"; then
        echo "$m bits: $received of $sent packets came back, the same as sent from packet $first on"
    else
        echo "$m bits: $received of $sent packets came back, DIFFERENT from those sent from packet $first on"
        status=1
    fi
done
exit $status
