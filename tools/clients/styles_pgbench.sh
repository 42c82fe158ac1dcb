#!/usr/bin/env bash
# What pgbench does over styles_server: styles_pgbench.sh HOST PORT. A line tells each thing that was tried, and what came.
set -u
export LC_ALL=C PGCONNECT_TIMEOUT=60
where="-h $1 -p $2 -U demo"
folder=$(mktemp -d)
trap 'rm -rf "$folder"' EXIT
echo '1 mon -2 days' > "$folder/query"
echo ':x' > "$folder/given"
printf '%s\n' ':x' '\gset' '\shell echo :postgres :iso_8601' > "$folder/told"
echo '1 fortnight' > "$folder/bad"

# Tells how many transactions pgbench made with these words, and of the errors that it told how many, and the last.
tell() {
  what=$1 && shift
  pgbench $where -n "$@" demo > "$folder/said" 2> "$folder/faults"
  status=$?
  made=$(sed -n 's/^number of transactions actually processed: //p' "$folder/said")
  faults=$(grep -c 'error:' "$folder/faults")
  last=$(grep 'error:' "$folder/faults" | tail -n 1 | cut -c 1-100)
  echo "$what: status $status, ${made:-no} transactions, $faults errors${last:+, $last}"
}

for mode in simple extended prepared; do
  tell "eight clients, -M $mode" -f "$folder/query" -M "$mode" -c 8 -j 2 -t 20
  tell "a connection for each of 40, -M $mode" -f "$folder/query" -M "$mode" -C -c 4 -j 2 -t 10
done
for mode in simple extended prepared; do
  tell "a parameter, -M $mode" -f "$folder/given" -D 'x=36:00' -M "$mode" -c 2 -t 10
done
tell 'its row' -f "$folder/told" -D 'x=36:00' -M extended -t 1
sed -n '/ PT/p' "$folder/said"
tell 'no interval' -f "$folder/bad" -t 10
tell 'its own script' -t 10
