#!/bin/sh
# The population and the bounds of a square of a plain store must not compile: a plain store keeps equal squares under several
# Ids, so the bound `SharedSquares` refuses it. Exits 0 exactly if the compiler refuses each call for that bound and for nothing
# else, and accepts the same file with the shared store. Run it from anywhere; it works on a copy and changes nothing.
set -eu
top=$(cd "$(dirname "$0")/../.." && pwd)
. "$top/tests/shared/counting.sh"
: "${RT:=rt}"
copy=$(mktemp -d)
trap 'rm -rf "$copy"' EXIT

mkdir -p "$copy/crates/caller/src"
cp "$top/HANDLES" "$copy/"
for crate in life_base life_quad; do
    mkdir -p "$copy/crates/$crate"
    cp -r "$top/crates/$crate/src" "$top/crates/$crate/specs" "$top/crates/$crate/proofs" "$copy/crates/$crate/"
done
grep -E '^life_(base|quad):' "$top/crates.txt" > "$copy/crates.txt"
echo 'caller: life_quad life_base' >> "$copy/crates.txt"

# A caller of the function $2 with the store $1, without proofs: only whether it compiles is asked.
compile() {
    cat > "$copy/crates/caller/src/lib.rt" <<CALLER
//! A caller of \`$2\`.
#![tactic(auto)]

use life_base::Kind;
use life_quad::{$1, Squares, $2};
use std::alloc::Global;

/// Asks about a blank square.
pub fn ask(alloc: Global, squares: &$1) -> Result<(), Kind> {
    let id = squares.empty(1);
    let _answer = $2(alloc, squares, id)?;
    Ok(())
}

#[cfg(test)]
mod tests {
    #[test]
    fn nothing() {}
}
CALLER
    (cd "$copy/crates/caller" && "$RT" try --test > "$copy/log" 2>&1)
}

refusal='error[unsatisfied-bound]: the trait bound `Plain: SharedSquares` is not satisfied'
problems=
for call in population bounds; do
    if ! compile Shared $call; then
        problems="$problems $call at the shared store was refused: $(cat "$copy/log")"
    fi
    if compile Plain $call; then
        problems="$problems $call at the plain store was accepted"
    elif ! grep -qF "$refusal" "$copy/log" || [ "$(grep -c 'error\[' "$copy/log")" != 1 ]; then
        problems="$problems $call at the plain store was refused for something else: $(cat "$copy/log")"
    fi
done
verdict "a plain store has no population and no bounds" "$problems"
ended
