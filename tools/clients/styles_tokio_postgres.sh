#!/usr/bin/env bash
# Builds styles_tokio_postgres.rs as tokio_postgres.sh builds its own, and runs it: styles_tokio_postgres.sh HOST PORT.
set -eu
SOURCE=styles_tokio_postgres exec bash "$(dirname "$0")/tokio_postgres.sh" "$@"
