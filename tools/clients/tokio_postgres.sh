#!/usr/bin/env bash
# Builds tokio_postgres.rs over Debian's packages of Rust crates, without the network, and runs it: tokio_postgres.sh HOST PORT. With
# SOURCE=NAME in the environment it takes NAME.rs in its place. The crates that are built are kept in .built.
set -eu
name=${SOURCE:-tokio_postgres}
source=$(cd "$(dirname "$0")" && pwd)/$name.rs
export CARGO_TARGET_DIR=${source%/tools/*}/.built/tokio_postgres
folder=$(mktemp -d)
trap 'rm -rf "$folder"' EXIT
mkdir "$folder/.cargo"
cat > "$folder/.cargo/config.toml" <<'END'
[source.crates-io]
replace-with = "debian"
[source.debian]
directory = "/usr/share/cargo/registry"
END
cat > "$folder/Cargo.toml" <<END
[package]
name = "clients"
version = "0.0.0"
edition = "2021"
[profile.dev]
debug = false
[[bin]]
name = "$name"
path = "$source"
[dependencies]
bytes = "1"
tokio = { version = "1", features = ["rt", "net", "time"] }
tokio-postgres = "0.7"
END
(cd "$folder" && cargo build --offline --quiet)
"$CARGO_TARGET_DIR/debug/$name" "$@"
