#!/usr/bin/env bash
# The tests that need cargo and nothing else: of the types, the builder, derivations, proofs of SPASS's, the second implementation and the vectors. Then the
# format of the code of all packages, and the lints and the documentation of these. Where rustfmt or clippy is not installed, it says so and goes on. SPASS is
# run besides where it is installed or can be.
set -eu
cd "$(dirname "$0")"
bash solvers.sh
cargo test --quiet --offline
bash lint.sh
