#!/usr/bin/env bash
# Signs packages with new keys, verifies them with the commands of the README, and checks that changed packages are
# rejected: tests/packages_signed.sh FOLDER. FOLDER is the output of packages/build.sh, and is not changed. Exits with 3
# if ssh-keygen is missing.
set -euo pipefail
top=$(cd "$(dirname "${BASH_SOURCE[0]}")/.." && pwd)
command -v ssh-keygen >/dev/null || { echo "tests/packages_signed.sh: ssh-keygen is missing (apt-get install openssh-client); nothing was run" >&2; exit 3; }
work=$(mktemp -d)
trap 'rm -rf "$work"' EXIT
made=$work/made

fail() {
    echo "tests/packages_signed.sh: $*"
    exit 1
}

# Copies the packages to the folder $made, and marks them as built from a commit without changes, since sign.sh rejects
# others: copy_packages FOLDER
copy_packages() {
    rm -rf "$made"
    cp -r "$1" "$made"
    provenance=$(cd "$made" && echo hidlog-*.provenance.json)
    sed -i 's/"changed": true/"changed": false/' "$made/$provenance"
    grep -q '"gitCommit"' "$made/$provenance" || { echo "tests/packages_signed.sh: $1/$provenance has no gitCommit: the packages were not built in a git repository; nothing was run" >&2; exit 3; }
    (cd "$made" && sha256sum ./hidlog* ./*.deb 2>/dev/null | sort -u -k2 >SHA256SUMS)
}

sign() {
    "$top/packages/sign.sh" "$work/$1" "$made" "$work/signers" >"$work/output" 2>&1
}

# Checks that sign.sh fails with a message, and writes no signature: expect_signing_refused KEY CASE MESSAGE
expect_signing_refused() {
    ! sign "$1" || fail "sign.sh signs $2"
    grep -q "$3" "$work/output" || fail "sign.sh, $2: unexpected message: $(cat "$work/output")"
    [ ! -e "$made/SHA256SUMS.sig" ] && [ ! -e "$made/$provenance.sig" ] || fail "signature files remain after signing $2"
}

# Verifies the signed packages with the commands that the README gives.
verify_packages() {
    (cd "$made" && ssh-keygen -Y verify -f "$work/signers" -I cogtzil -n hidlog-release -s SHA256SUMS.sig <SHA256SUMS &&
        ssh-keygen -Y verify -f "$work/signers" -I cogtzil -n hidlog-release -s "$provenance.sig" <"$provenance" &&
        sha256sum --check --strict --ignore-missing SHA256SUMS) >"$work/output" 2>&1
}

# Checks that the packages, which have been changed, are rejected. Then signs a new copy of the packages: expect_invalid
# CASE
expect_invalid() {
    ! verify_packages || fail "$1 is accepted"
    copy_packages "$packages"
    sign maintainer || fail "$(cat "$work/output")"
}

packages=$(cd "$1" && pwd)
for name in maintainer other; do
    ssh-keygen -q -t ed25519 -N "" -C "" -f "$work/$name"
done
echo "cogtzil namespaces=\"hidlog-release\" $(cat "$work/maintainer.pub")" >"$work/signers"

# Packages that sign.sh must reject.
copy_packages "$packages"
expect_signing_refused other "with a key that isn't listed" "is not a key in signers"
expect_signing_refused missing "without a key" "cannot sign"
deb=$(cd "$made" && set -- hidlog_*_amd64.deb && echo "$1")
printf x >>"$made/$deb"
expect_signing_refused maintainer "a package that was changed" "$deb: FAILED"
copy_packages "$packages"
touch "$made/hidlog-uhid_9.9_amd64.deb"
expect_signing_refused maintainer "a file that isn't listed" "hidlog-uhid_9.9_amd64.deb is not in SHA256SUMS"
copy_packages "$packages"
printf x >>"$made/$deb"
(cd "$made" && sha256sum ./hidlog* ./*.deb | sort -u -k2 >SHA256SUMS)
expect_signing_refused maintainer "a package with a different provenance" "$deb is missing or differs"
copy_packages "$packages"
sed -i 's/"changed": false/"changed": true/' "$made/$provenance"
(cd "$made" && sha256sum ./hidlog* ./*.deb | sort -u -k2 >SHA256SUMS)
expect_signing_refused maintainer "packages of changed sources" "were not built from a commit"
rm "$made/$provenance"
! sign maintainer || fail "sign.sh signs without a provenance"

# Signed packages that are changed afterwards, which the README's commands must reject.
copy_packages "$packages"
sign maintainer || fail "$(cat "$work/output")"
verify_packages || fail "the signatures are not valid: $(cat "$work/output")"
rm "$made"/*.crate
verify_packages || fail "the signatures of a part of the packages are not valid: $(cat "$work/output")"
printf x >>"$made/$deb"
expect_invalid "a changed package"
sed -i "s/^[0-9a-f]\{8\}/00000000/" "$made/SHA256SUMS"
expect_invalid "a changed sum"
printf x >>"$made/$deb"
(cd "$made" && sha256sum ./hidlog* ./*.deb | sort -u -k2 >SHA256SUMS)
expect_invalid "a package with a new sum"
sed -i 's/"gitCommit": "./"gitCommit": "0/' "$made/$provenance"
printf ' ' >>"$made/$provenance"
expect_invalid "a changed provenance"
rm "$made/SHA256SUMS.sig"
expect_invalid "a release without a signature"
cp "$made/$provenance.sig" "$made/SHA256SUMS.sig"
expect_invalid "the signature of another file"
rm "$made/SHA256SUMS.sig"
ssh-keygen -Y sign -q -f "$work/other" -n hidlog-release "$made/SHA256SUMS"
expect_invalid "the signature of another key"
rm "$made/SHA256SUMS.sig"
ssh-keygen -Y sign -q -f "$work/maintainer" -n file "$made/SHA256SUMS"
expect_invalid "a signature for another purpose"
ssh-keygen -Y verify -f "$top/packages/signers" -I cogtzil -n hidlog-release -s "$made/SHA256SUMS.sig" \
    <"$made/SHA256SUMS" >/dev/null 2>&1 && fail "packages/signers has the key of this test"
echo "tests/packages_signed.sh: releases are signed and verified, and each change is refused"
