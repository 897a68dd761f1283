#!/usr/bin/env bash
# Tests that the README's first two commands work in Debian's base system, as an unprivileged user:
# tests/base_system.sh FOLDER
#
# FOLDER is the root of the Debian system. If it does not exist, debootstrap installs the base system there. Needs root,
# debootstrap and a Debian mirror.
set -euo pipefail
top=$(cd "$(dirname "${BASH_SOURCE[0]}")/.." && pwd)
work=${1:?usage: tests/base_system.sh FOLDER}
[ -d "$work/usr" ] || debootstrap --variant=minbase bookworm "$work"
rm -rf "$work/home/tester"
mkdir -p "$work/home/tester"
git clone --quiet "$top" "$work/home/tester/clone"
chown -R 1234:1234 "$work/home/tester"
chroot --userspec=1234:1234 "$work" /usr/bin/env -i PATH=/usr/bin:/bin HOME=/home/tester bash -c '
    cd ~/clone
    time ./hidlog replay <examples/registration.log >~/replayed
    cmp ~/replayed examples/registration.log && echo "the replay equals the recording"
    time tests/run --quick'
