#!/usr/bin/env bash
# What psql does over styles_server: styles_psql.sh HOST PORT. A line tells each thing that was tried, and what came.
set -u
export LC_ALL=C PGCONNECT_TIMEOUT=60 PSQL_HISTORY=/dev/null INPUTRC=/dev/null
where="-h $1 -p $2 -U demo -d demo"

# Tells what psql prints for these words, in one line: of an error the code and the beginning of its text.
tell() {
  what=$1 && shift
  said=$(psql -X -A -t $where -v VERBOSITY=verbose "$@" 2>&1 | grep -v '^LOCATION: ' | tr -s '[:space:]' ' ' | cut -c 1-130)
  echo "$what: ${said% }"
}

# A client that stays, and asks the second of its queries when it is told to.
coproc staying { psql -X -A -t $where 2>&1; }
echo '1 day;' >&"${staying[1]}"
read -r said <&"${staying[0]}"
echo "a client that stays: $said"

tell 'query' -c '1 mon -2 days'
tell 'query in iso_8601' -c 'P1Y2M-3DT4H5M6.7S'
tell 'query in postgres_verbose' -c '@ 1 hour ago'
tell 'query in sql_standard' -c '+1-2 -3 +4:05:06.7'
tell 'query over lines' <<< $'1 day\n 2 hours;\n3 mons;'
tell 'blank query' -c ' ; '
tell 'no interval' -c '1 fortnight'
tell 'several queries' -c '1 day' -c 'x' -c '2 days'
tell 'a query behind an error' <<< $'x;\n1 day;'
tell '\gx' <<< '1 day \gx'
tell 'BEGIN' -c BEGIN
tell '\d' -c '\d'
tell '\copy' -c '\copy days to /dev/null'
for client in 1 2 3 4 5 6 7 8; do
  tell "of eight at once, the client $client" -c "$client days" &
done | sort

echo '2 days;' >&"${staying[1]}"
read -r said <&"${staying[0]}"
echo "the client that stayed: $said"
echo '\q' >&"${staying[1]}"
wait
