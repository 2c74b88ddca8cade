#!/usr/bin/env bash
# Shows that the compiler turns down two programs: one lets a slip go that it should settle or put back, one carries a
# position into an open session, where it should trade and specify. Each is the program in turned_down/accepted.txt with
# one call changed; that program itself is accepted. Run it at the top of the repository: tools/turned_down.sh
set -euo pipefail
top=$(cd "$(dirname "$0")/.." && pwd)
work=$(mktemp -d)
trap 'rm -rf "$work"' EXIT

# A copy of the repository, with the program as a crate that sees what the session's crate sees, and the session.
cp -r "$top/crates" "$top/crates.txt" "$work/"
sed -n 's/^session: \(.*\)/visitor: \1 session/p' "$top/crates.txt" >> "$work/crates.txt"
mkdir -p "$work/crates/visitor/src"

# Builds the program after the call $1 has become $2, and runs it. No proof is made: the compiler alone speaks.
check_with() {
    program=$(cat "$top/tools/turned_down/accepted.txt")
    if [[ "$program" != *"$1"* ]]; then
        echo "the program has no such call: $1" >&2
        exit 1
    fi
    printf '%s\n' "${program/"$1"/"$2"}" > "$work/crates/visitor/src/main.rt"
    (cd "$work/crates/visitor" && rt try < /dev/null > "$work/log" 2>&1)
}

# Says whether the program with the call $1 become $2 is turned down by the message $3.
turned_down() {
    if check_with "$1" "$2" || ! grep -qF "$3" "$work/log"; then
        echo "not turned down as it should be: $2" >&2
        tail -n 20 "$work/log" >&2
        exit 1
    fi
    echo "turned down, as it should be: $(grep -F "$3" "$work/log" | head -n 1)"
}

if ! check_with 'session.settle(slip)' 'session.settle(slip)'; then
    echo "the program that should be accepted is not" >&2
    tail -n 20 "$work/log" >&2
    exit 1
fi
echo "accepted, as it should be: a program that settles a slip and trades in a session"
turned_down 'session.settle(slip)' 'Ok(())' 'error[linear-value-let-go]'
turned_down 'session.trade(trader, lot)' 'session.carry(trader, lot)' 'error[unknown-method]'
