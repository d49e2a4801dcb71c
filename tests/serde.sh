#!/bin/sh
# serde.sh ROOM FOLDER: cargo finds serde beneath ROOM without a network: among the crates that it has, else among Debian's
# (librust-serde-json-dev, librust-serde-derive-dev). Where neither has it, its lines are taken out of the manifest in FOLDER, a
# copy of our crate's, and what is left out is printed.
set -eu
registry=/usr/share/cargo/registry
! (cd "$2" && cargo metadata --offline --format-version 1) > /dev/null 2>&1 || exit 0
if ls -d $registry/serde-[0-9]* $registry/serde_json-[0-9]* $registry/serde_derive-[0-9]* > /dev/null 2>&1; then
    mkdir -p "$1/.cargo"
    printf '[source.crates-io]\nreplace-with = "debian"\n[source.debian]\ndirectory = "%s"\n' $registry > "$1/.cargo/config.toml"
else
    sed -i '/serde/d' "$2/Cargo.toml"
    echo " serde (neither cargo nor Debian's folder of crates has it);"
fi
