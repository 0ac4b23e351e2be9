#!/usr/bin/env bash
# Records the logs of this folder anew. It needs Debian's package postgresql, and runs its server as the user postgres where root calls it.
set -eu
here=$(cd "$(dirname "$0")" && pwd)
programs=(/usr/lib/postgresql/*/bin/postgres)
bin=$(dirname "${programs[-1]}")
folder=$(mktemp -d)
server=
trap '[ -z "$server" ] || kill -INT "$server" 2>/dev/null || true; wait; rm -rf "$folder"' EXIT
as=()
[ "$(id -u)" -ne 0 ] || { as=(setpriv --reuid=postgres --regid=postgres --clear-groups) && chown postgres "$folder"; }
cd "$folder"

"${as[@]}" "$bin/initdb" -D data -U postgres --auth=trust >initdb
begin() { # how long a wait may be before deadlocks are looked for; further settings
  "${as[@]}" "$bin/postgres" -D data -k "$folder" -c listen_addresses= -c log_timezone=UTC -c log_line_prefix='%m [%p] ' -c log_statement=all \
    -c log_duration=on -c autovacuum=off -c deadlock_timeout="$1" 2>>server.log &
  server=$!
  until psql -h "$folder" -U postgres -c 'select 1' >/dev/null 2>&1; do sleep 0.2; done
  psql -h "$folder" -U postgres -qc 'set client_min_messages = error; drop table if exists account; create table account (id int primary key, amount int); insert into account values (1, 0), (2, 0)'
  : >server.log
}
end() { # the log that is kept: what clients did, without the lines of the server itself
  cp server.log kept.log
  kill -INT "$server"
  wait "$server" || true
  server=
  grep -vE 'LOG:  (received|aborting|background|shutting|checkpoint|database system)|^[^0-9]' kept.log >"$here/$1"
}
client() { # the name of its file
  psql -h "$folder" -U postgres -qf "$1" >/dev/null 2>&1
}

# A statement that locks a row goes on for some milliseconds when it has the lock.
rounds() { # what begins a transaction, and what is done with the lock
  local round
  for ((round = 0; round < 20; round++)); do
    printf '%s\n' "$1" "WITH locked AS MATERIALIZED (SELECT amount FROM account WHERE id = $((RANDOM % 2 + 1)) FOR UPDATE NOWAIT)" \
      'SELECT amount, pg_sleep(0.003) FROM locked;'
    printf '%s\n' '\if :ERROR' 'ROLLBACK;' '\else' "$2" 'COMMIT;' '\endif'
  done
}
RANDOM=1
for number in 1 2 3 4 5 6 7 8; do rounds 'BEGIN;' '' >"client$number"; done
all_clients() {
  local all=() number
  for number in 1 2 3 4 5 6 7 8; do
    client "client$number" &
    all+=($!)
  done
  wait "${all[@]}" || true
}
begin 1s
all_clients
end rows-good.log

# Client 8 begins no transaction, so its lock is gone before it has done its work and says that it commits.
rounds '' '\! sleep 0.05' >client8
begin 1s
all_clients
end rows-bad.log

# Two clients change two rows, each in another order. With a long deadlock_timeout nobody looks for that.
change() { # the first row, the second one
  printf '%s\n' 'BEGIN;' "UPDATE account SET amount = amount + 1 WHERE id = $1;" '\! sleep 1' \
    "UPDATE account SET amount = amount - 1 WHERE id = $2;" '\if :ERROR' 'ROLLBACK;' '\else' 'COMMIT;' '\endif'
}
change 1 2 >client1
change 2 1 >client2
two_clients() {
  client client1 &
  local one=$!
  client client2 &
  pids="$one $!"
}
begin 300ms
two_clients
# shellcheck disable=SC2086 # the numbers of the processes are words
wait $pids || true
two_clients
# shellcheck disable=SC2086
wait $pids || true
end deadlock-good.log

begin 1h
two_clients
sleep 6
# shellcheck disable=SC2016 # the dollar signs are PostgreSQL's
psql -h "$folder" -U postgres -c 'select pg_terminate_backend(pid) from pg_stat_activity where wait_event_type = $$Lock$$ limit 1' >/dev/null
# shellcheck disable=SC2086
wait $pids || true
end deadlock-bad.log
