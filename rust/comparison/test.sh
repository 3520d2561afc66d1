#!/usr/bin/env bash
# The tests of the packages that link the proved check, whose static library is built first; then their lints and documentation. Some run
# programs that are installed first where they can be, and else named as missing.
set -eu
cd "$(dirname "$0")/../.."
bash rust/solvers.sh
tools/static-library
cargo test --quiet --offline --release --manifest-path rust/Cargo.toml -p yestrwyn -p yestrwyn-comparison -p yestrwyn-desk
bash rust/lint.sh -p yestrwyn -p yestrwyn-comparison -p yestrwyn-desk
