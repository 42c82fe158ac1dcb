#!/usr/bin/env bash
# Runs tools/try_cursor.sql by psql over `pg_cursor listen`, and compares what it prints with tools/try_cursor.expected; then tries
# two clients at once, and a cancel of a FETCH (tools/try_cursor_clients.py): by the proved program where it was built, else by the
# one that is built unproved.
set -eu
cd "$(dirname "$0")/.."
export LC_ALL=C PGCONNECT_TIMEOUT=60
folder=$(mktemp -d)
server=
trap 'kill $server 2> /dev/null || true; rm -rf "$folder"' EXIT

# Waits until a command succeeds, as long as a process lives; then tells what that said.
while_alive() {
  process=$1 && said=$2 && shift 2
  until "$@"; do
    if ! kill -0 "$process" 2> /dev/null; then
      cat "$said"
      exit 1
    fi
    sleep 0.2
  done
}

program=$(python3 -B tools/programs.py cursor)
port=$(python3 -c 'import socket; s = socket.socket(); s.bind(("127.0.0.1", 0)); print(s.getsockname()[1])')
"$program" listen tcp "$port" "$PWD/data/rosters" 1 < /dev/null > "$folder/server" 2>&1 &
server=$!
while_alive "$server" "$folder/server" grep -qs listening "$folder/server"
psql -X -a -h 127.0.0.1 -p "$port" -U demo -d rosters < tools/try_cursor.sql > "$folder/printed" 2>&1 || true
if ! wait "$server"; then
  cat "$folder/server"
  exit 1
fi
server=
diff -u tools/try_cursor.expected "$folder/printed"
echo "psql printed what tools/try_cursor.expected has, and the program ended by itself."
python3 -B tools/try_cursor_clients.py "$program"
