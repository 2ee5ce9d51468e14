#!/usr/bin/env bash
# Builds the Rust crate's own sources, unchanged, into OUT/rust_ask.
#
#     compare/build.sh FOLDER OUT
#
# FOLDER holds the files of its src/, each under a name that ends in NAME.rs or NAME.rs.txt. They are copied into OUT,
# beside our stand-ins for those modules that are not at hand, and nothing of them is kept here. Needs rustc 1.70 or later and these packages of Debian:
#     librust-byteorder-dev librust-memchr-dev librust-linear-map-dev librust-thiserror-dev librust-prost-dev
#     librust-linux-perf-event-reader-dev
set -eu

if [ $# -ne 2 ]; then
    echo "usage: compare/build.sh FOLDER OUT" >&2
    exit 2
fi
here=$(cd "$(dirname "$0")" && pwd)
folder=$(cd "$1" && pwd)
mkdir -p "$2"
out=$(cd "$2" && pwd)
registry=${CARGO_REGISTRY_DIR:-/usr/share/cargo/registry}

rm -rf "$out/crate"
mkdir -p "$out/crate/src" "$out/crate/.cargo"
cp "$here/rust/Cargo.toml" "$out/crate/"
cp "$here"/rust/*.rs "$out/crate/src/"
cp -r "$here/rust/reader" "$out/crate/reader"
for name in build_id_event dso_info dso_key error feature_sections features perf_file record section simpleperf \
    thread_map
do
    found=$(find "$folder" -maxdepth 1 -type f | grep -E "(/|[^a-z_])$name\.rs(\.txt)?\$" | head -n 1)
    if [ -z "$found" ]; then
        echo "compare/build.sh: no $name.rs in $folder" >&2
        exit 1
    fi
    cp "$found" "$out/crate/src/$name.rs"
done

# Debian's packages are the only registry, so that the build needs no network.
cat > "$out/crate/.cargo/config.toml" <<END
[source.crates-io]
replace-with = "debian"

[source.debian]
directory = "$registry"
END

cd "$out/crate"
cargo build --release --offline -j1 --target-dir "$out/target"
cp "$out/target/release/rust_ask" "$out/rust_ask"
echo "built $out/rust_ask"
