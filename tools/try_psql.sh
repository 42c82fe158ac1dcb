#!/usr/bin/env bash
# Runs psql over the server and compares what it prints with tools/try_psql.expected. The server listens on a free port
# over data/rosters, and ends by itself after the five connections that are made here. The status is 0 where psql
# printed the same and the server ended well.
set -eu
cd "$(dirname "$0")/.."
export LC_ALL=C PGCONNECT_TIMEOUT=60
port=$(python3 -c 'import socket; s = socket.socket(); s.bind(("127.0.0.1", 0)); print(s.getsockname()[1])')
folder=$(mktemp -d)
ask="psql -X -h 127.0.0.1 -p $port -U demo -d rosters"

tools/run_server listen tcp "$port" "$PWD/data/rosters" 5 < /dev/null > "$folder/server" 2>&1 &
server=$!
trap 'kill "$server" 2> /dev/null || true; rm -rf "$folder"' EXIT

# Tries a command until it succeeds, as long as a process lives.
while_alive() {
  process=$1 && shift
  until "$@" > /dev/null 2>&1; do
    if ! kill -0 "$process" 2> /dev/null; then
      cat "$folder"/*
      exit 1
    fi
    sleep 0.2
  done
}

# Connections that are refused aren't counted. The first that is taken is one of the five.
while_alive "$server" $ask -c ''
$ask -c shifts -c corrections -c 'COPY leave TO STDOUT' > "$folder/printed" 2>&1
$ask -c BEGIN -c nosuch -c 'contracts;' -c COMMIT >> "$folder/printed" 2>&1 || true
# An interrupt makes psql ask for a cancel, on a connection of its own.
$ask -c unstaffed -c slow > "$folder/slow" 2>&1 &
slow=$!
while_alive "$slow" grep 'rows)' "$folder/slow"
sleep 0.3
kill -INT "$slow"
wait "$slow" || true
cat "$folder/slow" >> "$folder/printed"

if ! wait "$server"; then
  cat "$folder/server"
  exit 1
fi
diff -u tools/try_psql.expected "$folder/printed"
echo "psql printed what tools/try_psql.expected has, and the server ended by itself."
