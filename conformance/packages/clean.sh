#!/usr/bin/env bash
# Installs the packages of the conformance tests, a deb and a wheel, in a clean Debian system, and runs all conformance
# tests there as an unprivileged user, against the reference authenticator: without a PIN, with a PIN, and with built-in
# user verification.
#
#     conformance/packages/clean.sh FOLDER
#
# FOLDER is the root of the Debian system. If it does not exist, debootstrap installs Debian's base system there. It has
# no file of this repository except the packages. Needs root, debootstrap and network access; exits with 3 if one of
# these is missing.
set -euo pipefail
top=$(cd "$(dirname "${BASH_SOURCE[0]}")/../.." && pwd)
system=${1:?usage: conformance/packages/clean.sh FOLDER}
for tool in debootstrap dpkg-deb; do
    command -v "$tool" >/dev/null || {
        echo "conformance/packages/clean.sh: $tool is missing (apt-get install debootstrap dpkg); nothing was run" >&2
        exit 3
    }
done
[ "$(id -u)" = 0 ] || { echo "conformance/packages/clean.sh: debootstrap needs root; nothing was run" >&2 && exit 3; }
[ -d "$system/usr" ] || debootstrap --variant=minbase bookworm "$system" >"${system%/}.log" || exit 3
python=$("$top/tests/with_fido2.sh" -c 'import sys; print(sys.executable)')
rm -rf "$system/home/tester"
mkdir -p "$system/home/tester/packages"
"$python" "$top/conformance/packages/build.py" "$system/home/tester/packages" >/dev/null
chown -R 1234:1234 "$system/home/tester"

# Runs shell commands in the Debian system as a user: run_in_system USER:GROUP COMMANDS
run_in_system() {
    chroot --userspec="$1" "$system" /usr/bin/env -i PATH=/usr/sbin:/usr/bin:/sbin:/bin HOME=/home/tester LANG=C.UTF-8 \
        DEBIAN_FRONTEND=noninteractive bash -euc "$2"
}

# Shell commands for run_in_system: print the version, count the tests, run all of them against each kind of
# authenticator, and write a report in each format. $1 is the command hidlog-conformance, $2 that of the reference
# authenticator.
# shellcheck disable=SC2016 # expanded by the shell in the Debian system
run_tests='
    $1 --version
    $1 --list | tail -1
    for kind in "" "--pin 1234" "--fingerprint"; do
        $1 --device "$2 $kind" --touch-line touch --reset --jobs 4 2>/dev/null >report || true
        grep -A 3 ^failed report || true
        echo "all tests ${kind:-without a PIN}: $(tail -1 report)"
        [[ $(tail -1 report) =~ ^[1-9][0-9]*\ passed,\ 0\ failed ]]
    done
    for kind in tap junit json html; do
        $1 --device "$2" --touch-line touch --only ping/ --report $kind 2>/dev/null >report.$kind
        [ -s report.$kind ]
    done'

run_in_system 0:0 'cd /home/tester/packages && apt-get -qq update && apt-get -qq install -y --no-install-recommends ./*.deb >/dev/null'
echo "the deb:"
run_in_system 1234:1234 "cd && set -- hidlog-conformance 'python3 -m hidlog_conformance.reference' && $run_tests"
run_in_system 0:0 'apt-get -qq purge -y hidlog-conformance >/dev/null && ! python3 -c "import hidlog_conformance" 2>/dev/null'
run_in_system 0:0 'apt-get -qq install -y --no-install-recommends python3-venv >/dev/null'
echo "the wheel:"
run_in_system 1234:1234 "cd && python3 -m venv --system-site-packages venv &&
    venv/bin/python -m pip install --quiet --no-index --no-deps --disable-pip-version-check packages/*.whl &&
    set -- venv/bin/hidlog-conformance 'venv/bin/python -m hidlog_conformance.reference' && $run_tests"
echo "the packages work in a clean Debian system"
