#!/usr/bin/env bash
# A grant can't be made outside of acvp_policy, copied, spent twice or let go unspent: a crate that does so is refused
# by the message that says so, and the same crate without it is proved.
set -u
cd "$(dirname "$0")/../.." || exit 1
room=$(mktemp -d) || exit 1
trap 'rm -rf "$room"' EXIT
user=$room/crates/grant_user
mkdir -p "$user/src"
for crate in acvp_mac acvp_token acvp_policy; do
    cp -r "crates/$crate" "$room/crates/$crate"
    grep "^$crate:" crates.txt >>"$room/crates.txt"
done
echo "grant_user: acvp_policy" >>"$room/crates.txt"
failed=0

if grep -rnw unsafe crates/*/src; then
    echo "unsafe code can let a grant go unspent"
    failed=1
fi

write_user() { # FUNCTION: a crate that spends its grants as it should, with one more function
    cat >"$user/src/lib.rt" <<END
//! What a caller does with a grant.
#![tactic(auto)]

use acvp_policy::{Action, Facts, Grant, Resource, allows, decide, release};

/// Whether answers may be sent to a set of the account.
pub fn may_submit(facts: &Facts, account: u16, session: u64, set: u64) -> bool {
    match decide(Action::Submit, facts) {
        Ok(grant) => {
            let allowed = allows(&grant, account, Resource::Set(session, set));
            release(grant);
            allowed
        }
        Err(_) => false,
    }
}

/// Spends a grant that was given.
pub fn spent(grant: Grant) {
    release(grant);
}

$1
END
}

is_refused() { # WHAT MESSAGE FUNCTION
    write_user "$3"
    if (cd "$user" && rt check) >"$room/log" 2>&1; then
        echo "a grant is $1, and the crate is proved"
        failed=1
    elif ! grep -qF "$2" "$room/log"; then
        echo "a grant is $1, and the crate isn't refused for it:"
        grep -m 5 error "$room/log" || tail -n 5 "$room/log"
        failed=1
    fi
}

write_user ""
if ! (cd "$user" && rt check) >"$room/log" 2>&1; then
    echo "a crate that spends its grants as it should isn't proved:"
    grep -m 5 error "$room/log" || tail -n 5 "$room/log"
    exit 1
fi
is_refused "made outside" "error[private-field]: field \`action\` of struct \`Grant\` is private" \
    "pub fn made() -> Grant { Grant { action: Action::Submit, account: 7, resource: Resource::Account } }"
is_refused "copied" "error[borrow-e0382]: use of moved value: \`grant\`" \
    "pub fn copied(grant: Grant) -> (Grant, Grant) { (grant, grant) }"
is_refused "cloned" "error[unsupported-method]: \`Grant\` is not \`Clone\`" \
    "pub fn cloned(grant: &Grant) -> Grant { grant.clone() }"
is_refused "spent twice" "error[borrow-e0382]: use of moved value: \`grant\`" \
    "pub fn spent_twice(grant: Grant) { release(grant); release(grant); }"
is_refused "let go unspent" "error[linear-value-let-go]: \`_grant\` is let go where its block ends, and \`Grant\` is not \`Drop\`" \
    "pub fn let_go(_grant: Grant) {}"
exit $failed
