#!/usr/bin/env bash
# The proved check, which clause covers which, the merge, conversions, trims, calls of boards and the programs proofread and proofread_canonical against the
# second implementation in one run, ten thousand files checked as the command yestrwyn does it, the second readout against the first, and the deepest files under a stack
# of 4.5 MiB; the program of the first readout under 4.
set -eu
cd "$(dirname "$0")/.."
tools/static-library
for program in proofread proofread_canonical; do (cd "crates/$program" && rt run <stdin >/dev/null); done
cargo build --quiet --offline --profile measured --manifest-path rust/Cargo.toml -p yestrwyn-second -p yestrwyn-comparison -p yestrwyn-desk --bins
built=rust/target/measured
"$built/performance"
folder=$(mktemp -d)
trap 'rm -rf "$folder"' EXIT
"$built/files_per_second" "$folder" "$built/yestrwyn"
(ulimit -s 4608 && "$built/deepest")
(ulimit -s 4608 && "$built/deepest" canonical)
"$built/readouts" "$folder" crates/proofread/out/proofread "$built/readout" crates/proofread_canonical/out/proofread_canonical "$built/canonical"
deep() { # PROGRAM KIB
    for file in "$folder"/deep-*; do
        (ulimit -s "$2" && "crates/$1/out/$1" <"$file" >/dev/null) || { echo "$1 fails on $(basename "$file")" && exit 1; }
    done
    echo "$1 ends on every deep file under a stack of $2 KiB"
}
deep proofread 4096
deep proofread_canonical 4608
