#!/usr/bin/env bash
# Tests that the sections of README.md work for a new user, who has Debian 12, sudo and a clone. For each section, runs
# the
# ```sh blocks of "Get the packages" and of the section in a copy of a Debian system, and compares the output of each
# with the ```text block after it. Prints the time of each section in seconds, including the download of Debian's
# packages.
#
#     tests/readme_ways.sh FOLDER [SECTION ..]        SECTION is part of a section's heading [default: all sections]
#
# FOLDER is the root of the Debian system. If it does not exist, debootstrap installs the base system there.
# Needs root, debootstrap and a Debian mirror. Exits with 3 if one of these is missing, and with 1 if a section fails or
# takes more than ten minutes.
set -euo pipefail
top=$(cd "$(dirname "${BASH_SOURCE[0]}")/.." && pwd)
folder=${1:?usage: tests/readme_ways.sh FOLDER [SECTION ..]}
shift
[ "$(id -u)" = 0 ] || { echo "tests/readme_ways.sh: debootstrap needs root; nothing was run" >&2 && exit 3; }
[ -d "$folder/usr" ] || debootstrap --variant=minbase bookworm "$folder" >"${folder%/}.log" || exit 3
work=$(mktemp -d)
# Unmounts /proc and /dev of the copied system, even if a program still uses them, and removes the copy. If one is still
# mounted, does not remove files in it.
clean_up() {
    umount -l "$work/system/proc" "$work/system/dev/shm" "$work/system/dev" 2>/dev/null || true
    rm -rf --one-file-system "$work"
}
trap clean_up EXIT
failed=0

# Copies the Debian system to SYSTEM, and adds what the README assumes: sudo, /etc/hosts, a user, and a clone of the
# repository: prepare_system SYSTEM
prepare_system() {
    local system=$1
    cp -a "$folder" "$system"
    cp /etc/resolv.conf "$system/etc/resolv.conf"
    echo "127.0.0.1 localhost" >"$system/etc/hosts"
    mount --bind /dev "$system/dev"
    mount -t proc proc "$system/proc"
    mount --make-private "$system/dev"
    mount -t tmpfs -o mode=1777 tmpfs "$system/dev/shm"
    chroot "$system" /usr/bin/env -i PATH=/usr/sbin:/usr/bin:/sbin:/bin DEBIAN_FRONTEND=noninteractive bash -euc '
        apt-get -qq update && apt-get -qq install -y --no-install-recommends sudo git ca-certificates >/dev/null
        useradd --create-home --shell /bin/bash tester
        echo "tester ALL=(ALL) NOPASSWD:SETENV: ALL" >/etc/sudoers.d/tester' >"$work/prepared" 2>&1
    git clone --quiet "$top" "$system/home/tester/cogtzil"
    chroot "$system" chown -R tester:tester /home/tester
}

# Writes the ```sh blocks of a section of the README, and their expected outputs, to files in FOLDER: extract_blocks
# HEADING FOLDER
extract_blocks() {
    awk -v heading="## $1" -v folder="$2" '
        /^## / { is_on = ($0 == heading) }
        is_on && /^```sh/ { count++; into = sprintf("%s/%02d.sh", folder, count); next }
        is_on && /^```text/ { into = sprintf("%s/%02d.text", folder, count); next }
        /^```/ { into = ""; next }
        into != "" { print >into }' "$top/README.md"
}

# Runs the blocks in FOLDER as the user tester, and compares the output of each with the expected one: run_blocks SYSTEM
# FOLDER
run_blocks() {
    local system=$1 block text
    for block in "$2"/*.sh; do
        cp "$block" "$system/home/tester/block.sh"
        # unshare kills the processes that a block has started in the background when the block ends.
        unshare --pid --fork --kill-child --mount-proc="$system/proc" \
            chroot --userspec=tester --groups=tester "$system" /usr/bin/env -i PATH=/usr/bin:/bin HOME=/home/tester \
            LANG=C.UTF-8 DEBIAN_FRONTEND=noninteractive bash -c 'cd ~/cogtzil && set -e && source ~/block.sh' \
            >"$work/output" 2>&1 </dev/null || return 1
        text=${block%.sh}.text
        [ ! -e "$text" ] || diff "$text" <(sed 's/ *$//' "$work/output") >"$work/differs" || return 1
    done
}

# Tests one section of the README, and prints the result and the time: follow_section HEADING
follow_section() {
    local system=$work/system began status=ok
    mkdir -p "$work/get" "$work/section"
    extract_blocks "Get the packages" "$work/get"
    extract_blocks "$1" "$work/section"
    prepare_system "$system"
    began=$SECONDS
    { run_blocks "$system" "$work/get" && run_blocks "$system" "$work/section"; } || status=FAILED
    umount -l "$system/proc" "$system/dev/shm" "$system/dev"
    [ "$((SECONDS - began))" -lt 600 ] || status=FAILED
    echo "$status $1, $((SECONDS - began)) s: $(tail -1 "$work/output")"
    if [ "$status" = FAILED ]; then
        tail -30 "$work/output" | sed 's/^/    /'
        [ ! -s "$work/differs" ] || sed 's/^/    ! /' "$work/differs"
        failed=1
    fi
    rm -rf --one-file-system "$system" "$work/section" "$work/get"
}

# Test the sections from "A test in Python" to the last one before "What browsers ..".
while read -r heading; do
    wanted=
    [ $# != 0 ] || wanted=yes
    for word in "$@"; do
        [[ $heading != *"$word"* ]] || wanted=yes
    done
    [ -z "$wanted" ] || follow_section "$heading"
done < <(sed -n '/^## A test in Python$/,/^## What browsers/s/^## //p' "$top/README.md" | sed '$d')
exit "$failed"
