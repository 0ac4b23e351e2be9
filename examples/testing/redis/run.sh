#!/usr/bin/env bash
# Tests the lock at a Redis of its own: run.sh [OPTION ..], with the options of cspwatch-test.
set -u
cd "$(dirname "${BASH_SOURCE[0]}")" || exit 2
folder=$(mktemp -d)
export REDIS_SOCKET=$folder/redis
redis-server --port 0 --unixsocket "$REDIS_SOCKET" --save '' --dir "$folder" >/dev/null &
server=$!
trap 'kill $server; wait $server 2>/dev/null; rm -rf "$folder"' EXIT
for _ in {1..600}; do
  [ -S "$REDIS_SOCKET" ] && break
  sleep 0.1
done
cspwatch-test --database "$folder/failing" "$@" lock.csp LOCK lock.py
