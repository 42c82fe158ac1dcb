#!/usr/bin/env bash
# What psql does over waiting_server: waiting_psql.sh HOST PORT. A line tells each thing that was tried, and what came. The query
# `soon` isn't ready for some 20 ms, and `late` not for twenty seconds and more.
set -u
export LC_ALL=C PGCONNECT_TIMEOUT=60 PSQL_HISTORY=/dev/null INPUTRC=/dev/null
where="-h $1 -p $2 -U demo -d demo"

# Tells what psql prints for these words, in one line.
tell() {
  what=$1 && shift
  said=$("$@" 2>&1 | tr -s '[:space:]' ' ')
  echo "$what: ${said% }"
}

ask="psql -X -A -t $where"
tell 'query' $ask -c now -c soon
begun=$(date +%s)
tell 'Ctrl-C behind a second' timeout -s INT 1 $ask -c late
[ $(($(date +%s) - begun)) -lt 10 ] && echo 'it took less than ten seconds' || echo 'it took ten seconds or more'

# One at a terminal, in a query that isn't ready, while another one is served.
typed=$(mktemp)
{ printf 'late;\n' && sleep 2 && printf '\003' && sleep 1 && printf 'soon;\n' && sleep 1 && printf '\\q\n'; } \
  | script -qec "$ask" /dev/null > "$typed" 2>&1 &
sleep 1
tell 'another client meanwhile' $ask -c now -c soon
wait
echo "Ctrl-C at a terminal:" $(tr -d '\r' < "$typed" | grep -o 'ERROR: .*\|WAITED')
rm -f "$typed"
