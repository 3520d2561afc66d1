#!/usr/bin/env bash
# Installs the programs that some tests run besides cargo's own: the prover SPASS, the SAT solvers MiniSat and CaDiCaL, and the browser Chromium.
# It takes root, a network and Debian's packages, and five minutes at most, half a minute where no network answers. Whatever is still
# missing is named, with what does not run without it; that is no failure.
set -u

PROGRAMS="SPASS minisat cadical chromium"

package() { echo "${1,,}"; }

without() {
    case $1 in
        SPASS) echo "proofs of SPASS's are tested as they are stored, and no new ones are made" ;;
        minisat | cadical) echo "no audit is run with it" ;;
        chromium) echo "no page of a report is opened in a browser" ;;
    esac
}

missing() {
    for program in $PROGRAMS; do
        command -v "$program" >/dev/null 2>&1 || echo "$program"
    done
}

# The packages one by one, so that one that is not to be had keeps no other away. Fetching and installing are bounded apart, because only
# the first waits for others, and the second should not be broken off.
install() {
    export DEBIAN_FRONTEND=noninteractive
    timeout -k 5 30 apt-get update -qq || return
    for program in $(missing); do
        [ "$SECONDS" -lt 120 ] || return
        timeout -k 5 60 apt-get install -y -qq --no-install-recommends --download-only "$(package "$program")" &&
            timeout -k 5 120 apt-get install -y -qq --no-install-recommends --no-download -o DPkg::Lock::Timeout=30 "$(package "$program")"
    done
}

may_install() { [ "$(id -u)" = 0 ] && command -v apt-get >/dev/null 2>&1; }

# One at a time on this machine: who comes second waits for the first, but not for ever, and then finds what it has installed.
if [ -n "$(missing)" ] && may_install; then
    (
        flock -w 120 9 || exit
        [ -z "$(missing)" ] || install
    ) 9</var/lib/dpkg </dev/null >/dev/null 2>&1
fi
for program in $(missing); do
    echo "$program is not installed: $(without "$program")"
done
exit 0
