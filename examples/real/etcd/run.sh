#!/usr/bin/env bash
# Records the logs of this folder anew. It needs Debian's packages etcd-server, etcd-client and jq.
set -eu
here=$(cd "$(dirname "$0")" && pwd)
folder=$(mktemp -d)
export ETCDCTL_API=3
running=
each=
trap 'for each in $running; do kill -CONT "$each" 2>/dev/null || true; kill "$each" 2>/dev/null || true; done; wait; rm -rf "$folder"' EXIT
free_port() { python3 -c 'import socket; s = socket.socket(); s.bind(("127.0.0.1", 0)); print(s.getsockname()[1])'; }

declare -A peer client number_of
for node in 1 2 3; do peer[$node]=$(free_port) client[$node]=$(free_port); done
members="n1=http://127.0.0.1:${peer[1]},n2=http://127.0.0.1:${peer[2]},n3=http://127.0.0.1:${peer[3]}"
node() { # its number, and further words; its log goes to a file
  local n=$1
  shift
  etcd --name "n$n" --data-dir "$folder/n$n" --listen-peer-urls "http://127.0.0.1:${peer[$n]}" --initial-advertise-peer-urls \
    "http://127.0.0.1:${peer[$n]}" --listen-client-urls "http://127.0.0.1:${client[$n]}" --advertise-client-urls \
    "http://127.0.0.1:${client[$n]}" --initial-cluster "$members" --logger zap --log-outputs "$folder/n$n.log" "$@" >/dev/null 2>&1 &
  running="$running $!"
  number_of[$n]=$!
}
stop() { # the number of a node, and the signal
  kill "-$2" "${number_of[$1]}" 2>/dev/null || true
  wait "${number_of[$1]}" 2>/dev/null || true
}
ready() { # the number of a node
  until etcdctl --endpoints "http://127.0.0.1:${client[$1]}" endpoint health >/dev/null 2>&1; do sleep 0.2; done
}
leader() { # the number of the node that leads
  local n
  for n in 1 2 3; do
    etcdctl --endpoints "http://127.0.0.1:${client[$n]}" endpoint status -w json 2>/dev/null |
      jq -e '.[0].Status.leader == .[0].Status.header.member_id' >/dev/null && echo "$n" && return
  done
}
keep() { # good or bad: of each log the lines about votes and leaders
  local n
  for n in 1 2 3; do
    grep -E '"msg":"[0-9a-f]+ (became (candidate|leader)|received MsgVoteResp)|elected leader' "$folder/n$n.log" >"$here/raft-$1-n$n.log" || true
    rm -rf "$folder/n$n.log"
  done
}

# Raft: three nodes choose a leader; it is killed, and the others choose another one; then it comes back.
for n in 1 2 3; do node "$n"; done
for n in 1 2 3; do ready "$n"; done
first=$(leader)
stop "$first" KILL
sleep 4
node "$first"
ready "$first"
sleep 1

# The lock: three workers, each with a log of its own. What it does with the lock is told before it gives it back.
endpoint="http://127.0.0.1:${client[$first]}"
cat >"$folder/work" <<'END'
echo "$(date -u +%FT%T.%NZ) $3 got the lock" >>"$1"
sleep "$2"
echo "$(date -u +%FT%T.%NZ) $3 gives it back" >>"$1"
END
worker() { # its number, good or bad, how long it works, how often
  local round
  for ((round = 0; round < $4; round++)); do
    echo "$(date -u +%FT%T.%NZ) w$1 wants the lock" >>"$here/lock-$2-w$1.log"
    etcdctl --endpoints "$endpoint" lock --ttl 2 lock sh "$folder/work" "$here/lock-$2-w$1.log" "$3" "w$1" >/dev/null
  done
}
rm -f "$here"/lock-*.log
workers=
for w in 1 2 3; do
  worker "$w" good 0.2 3 &
  workers="$workers $!"
done
# shellcheck disable=SC2086 # the numbers of the processes are words
wait $workers

# Its etcdctl is stopped while a worker has the lock, so nobody keeps its lease alive, and another worker gets it.
echo "$(date -u +%FT%T.%NZ) w1 wants the lock" >>"$here/lock-bad-w1.log"
etcdctl --endpoints "$endpoint" lock --ttl 2 lock sh "$folder/work" "$here/lock-bad-w1.log" 6 w1 >/dev/null &
holder=$!
running="$running $holder"
until grep -q got "$here/lock-bad-w1.log"; do sleep 0.1; done
kill -STOP "$holder"
worker 2 bad 0.2 1 &
other=$!
wait "$other"
sleep 6
kill -CONT "$holder"
wait "$holder" || true
for n in 1 2 3; do stop "$n" TERM; done
keep good

# A node is started again as a cluster of its own (--force-new-cluster), as after a loss of the others; but they are still there.
for n in 1 2 3; do node "$n"; done
for n in 1 2 3; do ready "$n"; done
stop 3 TERM
node 3 --force-new-cluster
ready 3
sleep 2
for n in 1 2 3; do stop "$n" TERM; done
running=
keep bad
