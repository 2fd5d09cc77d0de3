# What the scripts here share: where the proved library is, and the building of the desk, whose program is then `$desk`. Sourced.
# BURGZEMI_LIB  the folder of libexports.a; proved and made by rt where it isn't given
set -euo pipefail
here=$(cd "$(dirname "${BASH_SOURCE[0]}")" && pwd)
root=$(dirname "$here")

command -v cargo > /dev/null || { echo "desk: cargo is not on the path" >&2; exit 1; }

if [ -z "${BURGZEMI_LIB:-}" ]; then
    "$root/.ci/made" exports
    BURGZEMI_LIB=$root/target/staticlib
fi
[ -f "$BURGZEMI_LIB/libexports.a" ] || { echo "desk: BURGZEMI_LIB is $BURGZEMI_LIB, where no libexports.a is" >&2; exit 1; }
BURGZEMI_LIB=$(cd "$BURGZEMI_LIB" && pwd)
export BURGZEMI_LIB

desk=${CARGO_TARGET_DIR:-$here/target}/release/desk
[ -x "$desk" ] || echo "building the desk (some seconds the first time)" >&2
(cd "$here" && cargo build --offline --release --quiet --jobs "${JOBS:-1}")
