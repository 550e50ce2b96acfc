#!/bin/sh
# What the clients of Redis make of `resp_server`: `redis-cli` by single commands, on one connection and with many requests at
# once, and `redis-benchmark`, each through `socat` on the loopback.
#
# usage, at the top of the repository: sh tests/redis.sh [built]
#
# `built` says that `rt ci` has just built it; else it is proved and built first. Where `socat`, `redis-cli` or
# `redis-benchmark` isn't there nothing is tried, and it says so. It ends with status 0 only where each answer was as it should be.
set -u
cd "$(dirname "$0")/.." || exit 1
for tool in socat redis-cli redis-benchmark; do
    if ! command -v "$tool" > /dev/null 2>&1; then
        echo "redis: nothing tried, since there is no $tool"
        exit 0
    fi
done
program=$PWD/crates/resp_server/out/resp_server
if [ "${1-}" != built ] || [ ! -x "$program" ]; then
    (cd crates/resp_server && rt run < stdin > /dev/null) || exit 1
fi
scratch=$(mktemp -d) || exit 1
server=
ends() {
    if [ -n "$server" ]; then kill "$server" 2> /dev/null; fi
    rm -rf "$scratch"
}
trap ends EXIT
trap 'exit 129' HUP
trap 'exit 130' INT
trap 'exit 141' PIPE
trap 'exit 143' TERM
# Any port that is free: socat says which it took.
socat -d -d TCP-LISTEN:0,bind=127.0.0.1,backlog=128,fork "EXEC:$program" 2> "$scratch/relay" &
server=$!
tries=0
until grep -qs 'listening on' "$scratch/relay"; do
    tries=$((tries + 1))
    if [ "$tries" -gt 100 ] || ! kill -0 "$server" 2> /dev/null; then
        echo 'redis: socat does not listen' >&2
        cat "$scratch/relay" >&2
        exit 1
    fi
    sleep 0.1
done
port=$(sed -n 's/.*listening on .*:\([0-9]*\)$/\1/p' "$scratch/relay")
failed=0

client() { timeout 60 redis-cli -h 127.0.0.1 -p "$port" "$@"; }

says() { # the answer wanted, the command
    wanted=$1
    shift
    said=$(client "$@" 2>&1)
    if [ "$said" != "$wanted" ]; then
        echo "redis: '$*' is answered by '$said', not '$wanted'" >&2
        failed=1
    fi
}

# Each connection has a store of its own.
says PONG PING
says hello PING hello
says OK SET k v
says '' GET k
says 1 INCR n
says 0 DEL k
says 'ERR wrong number of arguments' SET k
says 'ERR unknown command' FOO bar
says OK QUIT

printf 'SET a 41\nINCR a\nGET a\nDBSIZE\nDEL a b a\nGET a\n' > "$scratch/in"
printf 'OK\n42\n42\n1\n1\n\n' > "$scratch/want"
client < "$scratch/in" > "$scratch/out" 2>&1
if ! cmp -s "$scratch/out" "$scratch/want"; then
    echo 'redis: other answers on one connection' >&2
    cat "$scratch/out" >&2
    failed=1
fi

# Many requests at once: each has its reply.
awk 'BEGIN { for (i = 0; i < 100000; i++) { k = "key:" i; v = "value:" i
    printf "*3\r\n$3\r\nSET\r\n$%d\r\n%s\r\n$%d\r\n%s\r\n", length(k), k, length(v), v } }' > "$scratch/sets"
client --pipe < "$scratch/sets" > "$scratch/out" 2>&1
if ! grep -q '^errors: 0, replies: 100000$' "$scratch/out"; then
    echo 'redis: other replies to many requests' >&2
    cat "$scratch/out" >&2
    failed=1
fi

for many in 1 16; do
    timeout 120 redis-benchmark -h 127.0.0.1 -p "$port" -t ping,set,get -n 20000 -q -P "$many" > "$scratch/out" 2>&1 || failed=1
    rows=$(tr '\r' '\n' < "$scratch/out" | grep -c 'requests per second')
    if [ "$rows" -lt 4 ]; then
        echo "redis: redis-benchmark by $many is at $rows rows" >&2
        tail -n 20 "$scratch/out" >&2
        failed=1
    fi
done
if [ "$failed" -eq 0 ]; then echo 'redis: each answer was as it should be'; fi
exit "$failed"
