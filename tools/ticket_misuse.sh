#!/usr/bin/env bash
# A ticket can be used once, and be neither copied nor made by others. The compiler refuses such a program before anything of it is proved, so no
# must-fail edit can show it. This lays a small crate that uses a ticket rightly into a copy of the repository, and sees it accepted; then each
# misuse of it, and sees that it is refused for just that reason.
set -u
root=$(cd "$(dirname "$0")/.." && pwd)
work=$(mktemp -d)
trap 'rm -rf "$work"' EXIT
tar -C "$root" --exclude=out -cf - crates.txt crates | tar -C "$work" -xf -
echo 'ticket_use: tables mesh labelling cells path state walk' >> "$work/crates.txt"
mkdir -p "$work/crates/ticket_use/src"
failed=0

# The crate with these lines as the body of its function.
lay() {
    cat > "$work/crates/ticket_use/src/lib.rt" <<EOT
// What a caller may do with a ticket.
#![tactic(auto)]

use cells::Triangulation;
use labelling::Labelling;
use mesh::refusal::Refusal;
use walk::run::Run;
use walk::run::Ticket;

pub fn finer<T: Triangulation, L: Labelling>(
    run: &mut Run<T, L>,
    ticket: Ticket,
) -> Result<(), (Refusal, Ticket)> {
$1
    run.refine(ticket, 2)
}
EOT
}

check() {
    (cd "$work/crates/ticket_use" && rt check 2>&1)
}

accepts() {
    lay "$1"
    if check > "$work/log"; then
        echo "ticket: $2: accepted, as it must be"
    else
        echo "ticket: $2: NOT ACCEPTED"
        cat "$work/log"
        failed=1
    fi
}

# Refused, with this and only this error, in the crate that misuses the ticket.
refuses() {
    lay "$1"
    if check > "$work/log"; then
        echo "ticket: $2: NOT REFUSED"
        failed=1
    elif grep -q "^src/lib.rt:.*error\[$3\].*$4" "$work/log" && ! grep 'error' "$work/log" | grep -qv "^src/lib.rt:.*error\[$3\]"; then
        echo "ticket: $2: refused, as it must be ($3)"
    else
        echo "ticket: $2: REFUSED FOR ANOTHER REASON"
        cat "$work/log"
        failed=1
    fi
}

accepts '' 'used once'
refuses '    let _ = run.refine(ticket, 2);' 'used twice' 'borrow-e0382' 'ticket'
refuses '    let copy = ticket;
    let _ = run.refine(copy, 2);' 'used again after it was handed on' 'borrow-e0382' 'ticket'
refuses '    let copy = ticket.clone();
    let _ = run.refine(copy, 2);' 'copied' 'unknown-method' 'clone'
refuses '    let forged = Ticket { number: 7, mesh: 4 };
    let _ = run.refine(forged, 2);' 'made by a caller' 'private-field' 'number'
exit $failed
