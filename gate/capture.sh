#!/bin/sh
# capture.sh [PART..]: capture's tests with leak_find as its sources are, but compiled without the proofs, so that they need
# not wait for these. A part in which a test failed is tried once more. The last line is as that of capture/tests/run.sh.
set -u
cd "$(dirname "$0")/.." || exit 2
work=$(mktemp -d) || exit 2
trap 'rm -rf "$work"' EXIT
trap 'exit 2' INT TERM HUP
setup/unproved.sh --for-tests "$work/leak_find" || exit 2
MOMENTS=10 LEAK_FIND=$work/leak_find python3 gate/again.py capture/tests/run.sh "$@"
