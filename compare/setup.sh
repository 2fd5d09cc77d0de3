# What the scripts here share: where the proved library and program are, and the building of everything. Sourced.
# BURGZEMI_LIB     the folder of libexports.a; proved and made by rt where it isn't given
# BURGZEMI_PROGRAM the transfer program; proved and made by rt where it isn't given
# RT               the command that proves and builds
set -euo pipefail
cd "$(dirname "${BASH_SOURCE[0]}")"
root=$(cd .. && pwd)

if [ -z "${BURGZEMI_LIB:-}" ]; then
    "$root/.ci/made" exports
    BURGZEMI_LIB=$root/target/staticlib
fi
if [ -z "${BURGZEMI_PROGRAM:-}" ]; then
    "$root/.ci/made" burgzemi
    BURGZEMI_PROGRAM=$root/target/bin/burgzemi
fi
export BURGZEMI_LIB BURGZEMI_PROGRAM

cargo build --offline --release -j "${JOBS:-1}"
bin=${CARGO_TARGET_DIR:-target}/release
