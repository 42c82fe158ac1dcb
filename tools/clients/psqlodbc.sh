#!/usr/bin/env bash
# What psqlodbc does over the server: psqlodbc.sh HOST PORT. A line tells each thing that was tried, and what came.
set -u
export LC_ALL=C
address="Driver={PostgreSQL Unicode};Servername=$1;Port=$2;Database=rosters;Uid=demo;Pwd=demo;SSLmode=disable"

for more in '' ';UseDeclareFetch=1'; do
  said=$(echo shifts | isql -k "$address$more" -b -v 2>&1 | tr -s '[:space:]' ' ')
  echo "connect$more: ${said% }"
done
