#!/usr/bin/env bash
# What psql does over the server: psql.sh HOST PORT. A line tells each thing that was tried, and what came.
set -u
export LC_ALL=C PGCONNECT_TIMEOUT=60 PSQL_HISTORY=/dev/null INPUTRC=/dev/null
where="-h $1 -p $2 -U demo -d rosters"
folder=$(mktemp -d)
trap 'rm -rf "$folder"' EXIT

# Tells what psql prints for these words, in one line: of an error the code and the beginning of its text.
tell() {
  what=$1 && shift
  said=$(psql -X -A -t $where -v VERBOSITY=verbose "$@" 2>&1 | grep -v '^LOCATION: ' | tr -s '[:space:]' ' ' | cut -c 1-130)
  echo "$what: ${said% }"
}

# Tells what of psql's output at a terminal has this pattern, where these bytes are typed, a second between two words.
tell_typed() {
  what=$1 && pattern=$2 && shift 2
  said=$(for word; do printf "$word" && sleep 1; done | script -qec "psql -X -A -t $where" /dev/null 2>&1 | tr -d '\r')
  said=$(grep -o "$pattern" <<< "$said")
  echo "$what:" ${said:-nothing}
}

tell_typed 'at a terminal' 'psql major version .*, server major version .*\.' '\\q\n'
tell 'query' -c shifts
tell 'query without rows' -c unstaffed
tell 'unknown relation' -c nosuch
tell 'BEGIN, query, COMMIT' -c BEGIN -c corrections -c COMMIT
tell 'ROLLBACK' -c BEGIN -c ROLLBACK
tell 'failed transaction' -c BEGIN -c nosuch -c corrections -c COMMIT
tell 'COPY name TO STDOUT' -c 'COPY leave TO STDOUT'
tell '\copy name to FILE' -c "\copy contracts to $folder/copied"
echo "its file:" $(cat "$folder/copied")
tell '\gx' <<< 'corrections \gx'
tell_typed 'Ctrl-C' 'ERROR: .*\|1 year.*\|-.*[0-9]$' 'slow;\n' '\003' 'corrections;\n\\q\n'
tell '\d' -c '\d'
tell '\dt' -c '\dt'
tell '\gdesc' <<< 'shifts \gdesc'
tell_typed 'completion of a name' 'ERROR: .*' 'COPY shif\t TO STDOUT;\n' '\\q\n'
PGOPTIONS='-c IntervalStyle=iso_8601' tell 'IntervalStyle in PGOPTIONS' -c corrections
