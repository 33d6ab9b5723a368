#!/usr/bin/env bash
# Turns a second through a turnstile at 1, 2, 4 and 8 seats, beside a plain mutex of std in the same run, as ratios.
# The word, if there is one, is the number of turns a seat. Compare only what stands in one line: other work on the machine moves both.
set -eu
cd "$(dirname "$0")/../crates/turn_bench"
rt run -- "${1:-200000}" | grep ' seats: '
