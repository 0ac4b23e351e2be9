#!/usr/bin/env bash
# Two components report to one server: a sender puts messages into a buffer of one place, and a receiver gets them out of it.
#
#   examples/two_components.sh [PROGRAM]        PROGRAM is cspwatch; without it the built one is taken, else the released one, else
#                                              that on the PATH
#
# Each component reports, over a connection of its own, what it has just done, and knows nothing of the other's reports. They come in order
# because the system itself works in order: here by two pipes between the components. The receiver has a fault: it gets the third message wrong.
set -eu
top=$(dirname "$0")/..
built=$top/crates/cspwatch/out/cspwatch
[ -x "$built" ] || built=$top/dist/cspwatch
[ -x "$built" ] || built=$(command -v cspwatch || true)
program=$(realpath "${1:-"$built"}")
folder=$(mktemp -d)
trap 'rm -rf "$folder"' EXIT
cd "$folder"

cat > buffer.csp <<'END'
channel put, get : {1..3}
BUFFER = put?x -> get!x -> BUFFER
END
mkfifo messages acknowledgements

# The server writes where it listens, and after its last connection a summary.
"$program" serve buffer.csp BUFFER journal --listen 127.0.0.1:0 --connections 2 > server.log &
server=$!
until read -r _ address 2> /dev/null < server.log; do
  kill -0 "$server" || exit 1
  sleep 0.1
done
port=${address##*:}

report() { # sends the line over the connection, and shows it with its reply
  echo "$1" >&3
  read -r reply <&3
  echo "$1: $reply"
}

sender() {
  exec 3<> "/dev/tcp/127.0.0.1/$port" 4> messages 5< acknowledgements
  for message in 1 2 3; do
    report "E put.$message"
    echo "$message" >&4
    read -r _ <&5
  done
  report Q
}

receiver() {
  exec 3<> "/dev/tcp/127.0.0.1/$port" 4< messages 5> acknowledgements
  while read -r message <&4; do
    [ "$message" != 3 ] || message=1
    report "E get.$message"
    echo taken >&5
  done
  report N
  report S
  report Q
}

sender > sender.log &
receiver > receiver.log
status=0
wait "$server" || status=$?
wait

echo "The sender's lines, with the replies:"
cat sender.log
echo "The receiver's:"
cat receiver.log
echo "The server's last line, and its status:"
tail -n 1 server.log
echo "$status"
