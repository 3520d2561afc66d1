#!/usr/bin/env bash
# Writes the stored proofs anew: each by the command in its first line.
set -eu
cd "$(dirname "$0")"
for stored in *.spass; do
    command=$(head -n 1 "$stored")
    # shellcheck disable=SC2086
    { echo "$command"; $command || true; } > "$stored.new"
    mv "$stored.new" "$stored"
done
