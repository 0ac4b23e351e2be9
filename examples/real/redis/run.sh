#!/usr/bin/env bash
# Records good.log and bad.log anew. It needs Debian's packages redis-server and redis-tools, and Python 3.
set -eu
here=$(cd "$(dirname "$0")" && pwd)
folder=$(mktemp -d)
running=
trap 'for each in $running; do kill "$each" 2>/dev/null || true; done; rm -rf "$folder"' EXIT
free_port() { python3 -c 'import socket; s = socket.socket(); s.bind(("127.0.0.1", 0)); print(s.getsockname()[1])'; }

begin() { # the log: starts a server and the proxy before it
  server=$(free_port) port=$(free_port)
  redis-server --bind 127.0.0.1 --port "$server" --save '' --dir "$folder" >"$folder/redis" &
  running=$!
  python3 "$here/../proxy.py" "$port" "$server" --in-turn >"$here/$1" &
  running="$running $!"
  until redis-cli -p "$server" ping >"$folder/pong" 2>&1; do sleep 0.1; done
  sleep 0.5
}
end() {
  for each in $running; do
    kill "$each"
    wait "$each" || true
  done
  running=
}

give_back='if redis.call("GET", KEYS[1]) == ARGV[1] then return redis.call("DEL", KEYS[1]) end return 0'
worker() { # name, how long it waits, how long it works: it tries every 100 ms
  sleep "$2"
  { until [ "$(redis-cli -p "$port" SET lock "$1" NX PX 300)" = OK ]; do sleep 0.1; done
    sleep "$3"
    redis-cli -p "$port" EVAL "$give_back" 1 lock "$1"; } >"$folder/$1"
}
workers() {
  worker alice 0 "$1" &
  local all=$!
  worker bob 0.05 0.05 &
  all="$all $!"
  worker carol 0.1 0.05 &
  # shellcheck disable=SC2086 # the numbers of the processes are words
  wait $all $!
}

begin good.log
workers 0.15
workers 0.1
end

# The first worker works for longer than the lock lives.
begin bad.log
workers 0.5
end
