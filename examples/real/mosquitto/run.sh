#!/usr/bin/env bash
# Records good.log and bad.log anew. It needs Debian's packages mosquitto and mosquitto-clients.
set -eu
here=$(cd "$(dirname "$0")" && pwd)
folder=$(mktemp -d)
broker=
trap '[ -z "$broker" ] || kill "$broker" 2>/dev/null || true; rm -rf "$folder"' EXIT
PATH=$PATH:/usr/sbin

begin() { # the log: starts a broker on a free port
  port=$(python3 -c 'import socket; s = socket.socket(); s.bind(("127.0.0.1", 0)); print(s.getsockname()[1])')
  printf 'listener %s 127.0.0.1\nallow_anonymous true\nlog_dest stderr\nlog_type all\n' "$port" >"$folder/broker.conf"
  : >"$here/$1"
  mosquitto -c "$folder/broker.conf" 2>"$here/$1" &
  broker=$!
  until grep -q 'running$' "$here/$1"; do sleep 0.1; done
}
end() { # the log
  sleep 0.5
  kill "$broker"
  wait "$broker" || true
  broker=
  sed -i "s|$folder/||" "$here/$1"
}
publish() { mosquitto_pub -h 127.0.0.1 -p "$port" -t a/b "$@"; }

# Messages of both qualities, and a client that takes the place of another one of its name.
begin good.log
mosquitto_sub -h 127.0.0.1 -p "$port" -i sub -q 2 -t 'a/#' -C 4 >"$folder/came" &
sub=$!
sleep 0.5
publish -i pub -q 2 -m one
publish -i pub -q 1 -m two
mosquitto_sub -h 127.0.0.1 -p "$port" -i twin -q 1 -t 'b/#' >"$folder/none" 2>&1 &
twin=$!
sleep 0.3
publish -i twin -q 1 -m three
kill "$twin"
publish -i pub -q 2 -m four
wait "$sub"
end good.log

# A client that gives a second message the identifier of one that is still under way. The broker takes the second for a
# repetition of the first, and drops it.
begin bad.log
mosquitto_sub -h 127.0.0.1 -p "$port" -i sub -q 2 -t 'a/#' -C 1 >"$folder/came" &
sleep 0.5
exec 3<>"/dev/tcp/127.0.0.1/$port"
printf '\x10\x0f\0\4MQTT\4\2\0\x3c\0\3raw' >&3        # CONNECT as `raw`
sleep 0.2
printf '\x34\x08\0\3a/b\0\7x\x34\x08\0\3a/b\0\7y' >&3  # PUBLISH x and PUBLISH y, both with identifier 7
sleep 0.2
printf '\x62\2\0\7' >&3                                # PUBREL 7
sleep 0.2
printf '\xe0\0' >&3                                    # DISCONNECT
sleep 0.2
exec 3>&-
end bad.log
