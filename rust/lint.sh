#!/usr/bin/env bash
# Format, lints and documentation without a warning: of the packages that the arguments choose, as cargo reads them, or of the default ones.
set -eu
cd "$(dirname "$0")"
if cargo fmt --version >/dev/null 2>&1; then
    cargo fmt --all --check
else
    echo "rustfmt is not installed: the format is not tested"
fi
if cargo clippy --version >/dev/null 2>&1; then
    cargo clippy --quiet --offline --all-targets "$@" -- -D warnings
else
    echo "clippy is not installed: the lints are not tested"
fi
RUSTDOCFLAGS="-D warnings" cargo doc --quiet --offline --no-deps "$@"
