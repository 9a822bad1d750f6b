#!/bin/sh
# Passing a client's number, a server's number or a timestamp for one another does not build. `rt must-fail` takes only
# edits that reach the prover, so the compiler's refusals are tried here: each small crate over `ids`, or over `sim_blocks` as it
# was just proved, must be refused in these very words, and the same crate without a mix-up must be proved.
set -eu
cd "$(dirname "$0")/.."
# `rt ci` refuses a crate's files that stand elsewhere in the checkout.
work=$(mktemp -d)
trap 'rm -rf "$work"' EXIT
below=$(sed -n 's/^sim_blocks: //p' crates.txt)
if ! tools/fresh $below sim_blocks && ! (cd crates/sim_blocks && rt lib) >"$work/log" 2>&1; then
    cat "$work/log" >&2
    exit 1
fi

checked() { # NAME CALL
    mkdir -p "$work/$1/src"
    cat >"$work/$1/src/lib.rt" <<TXT
#![tactic(auto)]

use ids::ClientId;
use ids::ServerId;
use ids::Timestamp;

pub fn named(b: &[u32], k: ClientId, j: ServerId, t: Timestamp) -> bool {
    $2
}
TXT
    tools/over check "$work/$1" "$1" "$below sim_blocks" >"$work/log" 2>&1
}

refused() { # NAME CALL WORDS
    if checked "$1" "$2"; then
        echo "mixups: $1 was built" >&2
        exit 1
    fi
    if ! grep -qF "$3" "$work/log"; then
        echo "mixups: $1 was refused for another reason:" >&2
        tail -n 5 "$work/log" >&2
        exit 1
    fi
}

proved() { # NAME CALL
    if ! checked "$1" "$2"; then
        echo "mixups: $1, a crate without a mix-up, is refused:" >&2
        tail -n 5 "$work/log" >&2
        exit 1
    fi
}

proved stamped 'ids::valid_stamped(k, j, t)'
proved block 'sim_blocks::valid_server_block(b, 3, 2, j)'
refused client_for_server 'ids::valid_stamped(k, k, t)' 'expected `ServerId`, found `ClientId`'
refused server_for_client 'ids::valid_stamped(j, j, t)' 'expected `ClientId`, found `ServerId`'
refused server_for_timestamp 'ids::valid_stamped(k, j, j)' 'expected `Timestamp`, found `ServerId`'
refused timestamp_for_server 'ids::valid_stamped(k, t, t)' 'expected `ServerId`, found `Timestamp`'
refused client_for_timestamp 'ids::valid_stamped(k, j, k)' 'expected `Timestamp`, found `ClientId`'
refused timestamp_for_client 'ids::valid_stamped(t, j, t)' 'expected `ClientId`, found `Timestamp`'
refused clients_block 'sim_blocks::valid_server_block(b, 3, 2, k)' 'expected `ServerId`, found `ClientId`'
echo 'mixups: seven refused'
