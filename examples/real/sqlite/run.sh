#!/usr/bin/env bash
# Records good.log and bad.log anew. It needs Debian's packages sqlite3 and strace, and the right to trace.
set -eu
here=$(cd "$(dirname "$0")" && pwd)
folder=$(mktemp -d)
trap 'rm -rf "$folder"' EXIT
cd "$folder"

record() { # the log, a script for the shell; the names of the folder go out of the log
  rm -f t.db*
  sqlite3 t.db 'create table t(x); insert into t values(0);'
  strace -f -y -s 0 -e trace=fcntl,pwrite64,fdatasync,fsync,unlink -o trace bash -c "$2"
  sed "s|$(pwd -P)/||g; s|$(pwd -P)|.|g" trace >"$here/$1"
}

# Two processes that want to write at once, of which one is refused the lock; then a third, and a rollback.
record good.log '
  { echo "begin immediate; insert into t values(1);"; sleep 1; echo "commit;"; } | sqlite3 t.db &
  sleep 0.4
  sqlite3 t.db "insert into t values(2);" 2>/dev/null
  wait
  sqlite3 t.db "begin; insert into t values(3); rollback; insert into t values(4);"'

# Without syncs a crash of the machine can leave a database that nothing mends.
record bad.log 'sqlite3 t.db "insert into t values(1); pragma synchronous=off; insert into t values(2);"'
