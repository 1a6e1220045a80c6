#!/bin/sh
# Measures mqserve beside other servers on loopback. README.md says what and how; the arguments are those of peers.py.
# Compiles the client and two servers into a temporary folder, and installs nothing.
set -eu

# A whole run takes three to five minutes; one that hangs is ended.
MOST_SECONDS=1800

here=$(cd "$(dirname "$0")" && pwd)
for tool in gcc python3 timeout; do
    command -v "$tool" > /dev/null || { echo "peers.sh: $tool is missing" >&2; exit 1; }
done

room=$(mktemp -d)
runner=

# peers.py ends its servers and takes their notes away. A note that is left is of a server that outlived it.
finish() {
    trap - EXIT INT TERM HUP
    if [ -n "$runner" ]; then
        kill "$runner" 2> /dev/null || true
        wait "$runner" || true
    fi
    for note in "$room"/*.server; do
        if [ -e "$note" ]; then
            kill -KILL "$(basename "$note" .server)" 2> /dev/null || true
        fi
    done
    rm -rf "$room"
}
trap finish EXIT
trap 'exit 130' INT
trap 'exit 143' TERM HUP

compile() {
    output=$1
    shift
    (cd "$here/peers" && gcc -std=gnu17 -D_GNU_SOURCE -O2 -Wall -Wextra -pthread -o "$room/$output" "$@" sockets.c)
}
compile client client.c stream.c peer_mqserve.c peer_redis.c peer_beanstalkd.c peer_echo.c peer_kernel.c
compile echo_server echo_server.c
compile least_server least_server.c

timeout --kill-after=10 "$MOST_SECONDS" python3 -B "$here/peers.py" "$room" "$@" &
runner=$!
status=0
wait "$runner" || status=$?
runner=
exit "$status"
