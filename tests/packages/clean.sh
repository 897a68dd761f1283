#!/usr/bin/env bash
# Tests the packages for Python, node, C, Go, Rust, Ruby and Java as new users would use them: installs each with its
# language's tool in a clean Debian system, and runs the commands of its README, which register and sign in. Prints the
# time for each in seconds, including the download of Debian's packages. Needs root, debootstrap and a Debian mirror;
# exits with 3 if one of these is missing.
#
#     tests/packages/clean.sh FOLDER [PACKAGES]
#
# FOLDER is the root of the Debian system. If it does not exist, debootstrap installs the base system there. PACKAGES is
# the output of packages/build.sh [default: builds the packages]. With HIDLOG_CASES=TEXT, runs only the cases whose
# names contain TEXT.
set -euo pipefail
top=$(cd "$(dirname "${BASH_SOURCE[0]}")/../.." && pwd)
folder=${1:?usage: tests/packages/clean.sh FOLDER [PACKAGES]}
[ "$(id -u)" = 0 ] || { echo "tests/packages/clean.sh: debootstrap needs root; nothing was run" >&2 && exit 3; }
[ -d "$folder/usr" ] || debootstrap --variant=minbase bookworm "$folder" >"${folder%/}.log" || exit 3
scratch=$(mktemp -d)
# Unmounts /proc and /dev of the copied system, even if a program still uses them, and removes the copy. If one is still
# mounted, does not remove files in it.
clean_up() {
    umount -l "$scratch/system/proc" "$scratch/system/dev" 2>/dev/null || true
    rm -rf --one-file-system "$scratch"
}
trap clean_up EXIT
packages=${2-}
if [ -z "$packages" ]; then
    packages=$scratch/packages
    "$top/packages/build.sh" "$packages" >/dev/null
fi
version=$(sed -n 's/^version: //p' "$top/release/BUILD")
failed=0

# Runs shell commands in a new copy of the system, which has the packages in /packages, and prints the result and the
# time: run_in_clean_system CASE COMMANDS
run_in_clean_system() {
    [[ $1 == *${HIDLOG_CASES-}* ]] || return 0
    local began=$SECONDS system=$scratch/system
    rm -rf --one-file-system "$system"
    cp -a "$folder" "$system"
    mkdir -p "$system/packages" "$system/work"
    cp "$packages"/* "$system/packages"
    cp /etc/resolv.conf "$system/etc/resolv.conf"
    mount --bind /dev "$system/dev"
    mount -t proc proc "$system/proc"
    chroot "$system" /usr/bin/env -i PATH=/usr/sbin:/usr/bin:/sbin:/bin HOME=/root LANG=C.UTF-8 \
        DEBIAN_FRONTEND=noninteractive bash -euo pipefail -c "$start
$2" >"$scratch/output" 2>&1 </dev/null && status=ok || status=FAILED
    umount -l "$system/proc" "$system/dev"
    echo "$status $1, $((SECONDS - began)) s: $(tail -1 "$scratch/output")"
    if [ "$status" = FAILED ]; then
        tail -25 "$scratch/output" | sed 's/^/    /'
        failed=1
    fi
}

# Shell commands that run_in_clean_system runs before others: they define functions for sudo and apt-get, which the
# READMEs use, and run_readme FILE [HEADING], which runs the commands of a README; and they update the package lists.
# shellcheck disable=SC2016 # the shell in the system expands it
start='
sudo() { "$@"; }
apt-get() { command apt-get -qq -o Dpkg::Use-Pty=0 -y --no-install-recommends "$@"; }
run_readme() {
    awk -v heading="${2-}" "
        /^## / { is_on = heading == \"\" || \$0 == \"## \" heading }
        NR == 1 { is_on = heading == \"\" }
        is_on && /^    / { sub(\"    \", \"\"); print }" "$1" >/work/lines.sh
    [ -s /work/lines.sh ]
    source /work/lines.sh
}
cd /work
apt-get update'
debs="/packages/hidlog_${version}_amd64.deb /packages/libhidlog1_${version}_amd64.deb"

run_in_clean_system "C, of libhidlog-dev" "apt-get install $debs /packages/libhidlog-dev_${version}_amd64.deb
run_readme /usr/share/doc/libhidlog-dev/README.md | tee out
grep -q 'sign in' out"
run_in_clean_system "C, of the tarball" "tar -xzf /packages/hidlog-$version-linux-x86_64.tar.gz && cd hidlog-$version
bin/hidlog check examples/sign_in.log
apt-get install gcc libc6-dev pkgconf libfido2-dev libssl-dev
run_readme README.md 'Register and sign in from C' | tee out
grep -q 'sign in' out"
run_in_clean_system "Python, of python3-hidlog" "apt-get install $debs /packages/python3-hidlog_${version}_amd64.deb
run_readme /usr/share/doc/python3-hidlog/README.md Python"
run_in_clean_system "Ruby and Java, of python3-hidlog" "mkdir -p /usr/share/man/man1
apt-get install $debs /packages/python3-hidlog_${version}_amd64.deb ruby openjdk-17-jdk-headless
run_readme /usr/share/doc/python3-hidlog/README.md 'Ruby, Java, Go, Perl, PHP' | tee out
[ \"\$(grep -c '^ok\$' out)\" = 2 ] && tail -1 out"
run_in_clean_system "the command, with python3-hidlog and without" "apt-get install $debs
! hidlog mermaid /usr/share/doc/hidlog/examples/sign_in.log 2>message && cat message
hidlog --help >help
apt-get install /packages/python3-hidlog_${version}_amd64.deb
cd /usr/share/doc/hidlog && hidlog check examples/sign_in.log
hidlog --help | cmp - /work/help
hidlog mermaid examples/sign_in.log | sed -n 1p
apt-get install --reinstall $debs
hidlog mermaid examples/sign_in.log | sed -n 1p
apt-get purge python3-hidlog
! hidlog mermaid examples/sign_in.log && ! [ -d /usr/lib/python3-hidlog ] && ! [ -d /usr/lib/python3/dist-packages/hidlog ]
hidlog check examples/sign_in.log
dpkg -i /packages/hidlog-uhid_${version}_amd64.deb || apt-get install -f
hidlog-uhid --version"
run_in_clean_system "Python, of the wheel" "apt-get install python3-venv python3-cryptography python3-pytest
python3 -m venv --system-site-packages venv
venv/bin/pip install --quiet --no-index /packages/*x86_64.whl
venv/bin/python -c 'import importlib.metadata; print(importlib.metadata.metadata(\"hidlog\").get_payload())' |
    awk '/^\`\`\`/ { n++; next } n == 1' >test_it.py
venv/bin/python -m pytest -q"
run_in_clean_system "node, of npm's package" "apt-get install nodejs npm
npm init -y >/dev/null && npm i -D --offline --no-audit --no-fund /packages/hidlog-$version.tgz
awk '/^\`\`\`js/ { n++; next } /^\`\`\`/ { n += n % 2 } n % 2 && n < 2' node_modules/hidlog/README.md >/dev/null
{ awk '/^\`\`\`js\$/ { is_on = 1; next } /^\`\`\`/ { is_on = 0 } is_on' node_modules/hidlog/README.md; } >all.mjs
{ grep '^import' all.mjs; grep -v '^import' all.mjs; } >readme.mjs
node readme.mjs
run_readme node_modules/hidlog/README.md Recordings"
run_in_clean_system "Go" "apt-get install golang-go gcc libc6-dev unzip ca-certificates
cp /packages/hidlog-go-$version.zip .
unzip -p hidlog-go-$version.zip cogtzil.example/hidlog@v$version/README.md >README.md
mkdir -p proxy/cogtzil.example/hidlog/@v
awk '/^## Install/ { is_on = 1 } /^## A test/ { is_on = 0 } is_on && /^    / { sub(\"    \", \"\"); print }' README.md |
    grep -v '^go get' >install.sh
source install.sh
mkdir example && cd example && go mod init example
go get cogtzil.example/hidlog@\$version
awk '/^\`\`\`/ { n++; next } n == 1' ../README.md >sign_in_test.go
go test -v"
run_in_clean_system "Rust" "apt-get install cargo gcc libc6-dev libssl-dev git
cp /packages/*.crate . && tar -xzf hidlog-$version.crate && cp hidlog-$version/README.md .
awk '/^## Install/ { is_on = 1 } /^## A test/ { is_on = 0 } is_on && /^    / { sub(\"    \", \"\"); print }' README.md >install.sh
source install.sh
awk '/^\`\`\`/ { n++; next } n == 1' ../README.md >src/lib.rs
cargo test --offline -- --nocapture | tee out
grep '^test result: ok. 1 passed' out"
exit "$failed"
