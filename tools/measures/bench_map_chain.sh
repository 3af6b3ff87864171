#!/usr/bin/env bash
# How long the calls of map_chain take over one million pairs, or as many as the one word says, and over 1,000: of one
# chain, beside a plain vector of the same pairs, and of 16 chains that grew side by side. Needs `rt` on the path,
# which proves the program bench first. It writes one line for each measure: only the ratios of one run mean
# anything.
set -euo pipefail
# shellcheck source-path=SCRIPTDIR source=../common/script.sh
. "$(dirname "${BASH_SOURCE[0]}")/../common/script.sh"
pairs=${1:-1000000}
proved bench run
bench=$(built bench)
for count in 1000 "$pairs"; do
    echo "$count pairs"
    "$bench" map_chain "$count" | sed 's/^/  /'
done
