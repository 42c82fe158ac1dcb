#!/usr/bin/env bash
# What pgbench does over the server: pgbench.sh HOST PORT. A line tells each thing that was tried, and what came.
set -u
export LC_ALL=C PGCONNECT_TIMEOUT=60
where="-h $1 -p $2 -U demo"
folder=$(mktemp -d)
trap 'rm -rf "$folder"' EXIT
echo 'shifts' > "$folder/query"

# Tells how many transactions pgbench made with these words, and of the errors that it told how many, and the last.
tell() {
  what=$1 && shift
  pgbench $where "$@" rosters > "$folder/said" 2> "$folder/faults"
  status=$?
  made=$(sed -n 's/^number of transactions actually processed: //p' "$folder/said")
  faults=$(grep -c 'error:' "$folder/faults")
  last=$(grep 'error:' "$folder/faults" | tail -n 1 | cut -c 1-100)
  echo "$what: status $status, ${made:-no} transactions, $faults errors${last:+, $last}"
}

for mode in simple extended prepared; do
  tell "-n -f FILE -M $mode" -n -f "$folder/query" -M "$mode" -c 2 -t 10
done
tell 'without -n' -f "$folder/query" -t 10
tell 'its own script' -n -t 10
tell 'its own tables' -i
