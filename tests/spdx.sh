#!/usr/bin/env bash
# Validates the SPDX document that packages/build.sh writes, with the Go library tools-golang of the SPDX project. The
# library must also reject five invalid documents: tests/spdx.sh CACHE
#
# Debian has the library since trixie. Its packages are downloaded to CACHE and unpacked there, but not installed; with
# HIDLOG_OFFLINE=1, nothing is downloaded. Exits with 3 if a dependency is missing.
set -euo pipefail
top=$(cd "$(dirname "${BASH_SOURCE[0]}")/.." && pwd)
mkdir -p "${1:?usage: tests/spdx.sh CACHE}"
cache=$(cd "$1" && pwd)
work=$(mktemp -d)
trap 'rm -rf "$work"' EXIT
command -v go >/dev/null || { echo "tests/spdx.sh: go is missing (apt-get install golang-go); nothing was run" >&2 && exit 3; }
packages=(golang-github-spdx-tools-golang-dev golang-github-spdx-gordf-dev golang-github-anchore-go-struct-converter-dev
    golang-k8s-sigs-yaml-dev golang-github-google-go-cmp-dev)

# Downloads the packages from Debian's trixie with apt-get, which uses only directories in CACHE.
download() {
    local options=(-o "Dir::Etc::sourcelist=$cache/sources.list" -o Dir::Etc::sourceparts=/dev/null
        -o "Dir::State::lists=$cache/lists" -o "Dir::Cache=$cache" -o APT::Sandbox::User=root)
    mkdir -p "$cache"/lists/partial "$cache"/archives/partial "$cache/debs"
    echo "deb [signed-by=/usr/share/keyrings/debian-archive-keyring.gpg] http://deb.debian.org/debian trixie main" \
        >"$cache/sources.list"
    apt-get -qq "${options[@]}" update && (cd "$cache/debs" && apt-get -qq "${options[@]}" download "${packages[@]}")
}

if [ ! -e "$cache/root/.whole" ]; then
    [ -z "${HIDLOG_OFFLINE-}" ] && download >"$work/output" 2>&1 ||
        { echo "tests/spdx.sh: Debian's mirror is unreachable, or HIDLOG_OFFLINE is set; nothing was run" >&2 && exit 3; }
    for package in "$cache"/debs/*.deb; do
        dpkg-deb -x "$package" "$cache/root"
    done
    touch "$cache/root/.whole"
fi
cat >"$work/main.go" <<'GO'
package main

import (
	"fmt"
	"os"

	"github.com/spdx/tools-golang/json"
	"github.com/spdx/tools-golang/spdxlib"
)

func main() {
	document, err := json.Read(os.Stdin)
	if err == nil {
		err = spdxlib.ValidateDocument(document)
	}
	if err != nil {
		fmt.Println("rejected:", err)
		os.Exit(1)
	}
	described, err := spdxlib.GetDescribedPackageIDs(document)
	if err != nil {
		fmt.Println("rejected:", err)
		os.Exit(1)
	}
	fmt.Printf("%s, %d packages, %d of them described\n", document.SPDXVersion, len(document.Packages), len(described))
}
GO
GO111MODULE=off GOPATH=$cache/root/usr/share/gocode GOCACHE=$work/go go build -o "$work/validator" "$work/main.go"
"$top/packages/build.sh" "$work/made" >/dev/null
list=$(echo "$work"/made/*.spdx.json)
"$work/validator" <"$list"

# Changes the document with a sed expression, and checks that the validator rejects it: expect_rejected SED_EXPRESSION
expect_rejected() {
    sed "$1" "$list" >"$work/wrong"
    ! cmp -s "$list" "$work/wrong" || { echo "$1 changes nothing" && exit 1; }
    ! "$work/validator" <"$work/wrong" >"$work/output" || { echo "the validator accepts a document changed by $1" && exit 1; }
}
expect_rejected 's/"SPDX-2.3"/"SPDX-9.9"/'
expect_rejected '0,/"SPDXID": "SPDXRef-h/s//"SPDXID": "h/'
expect_rejected 's/"Organization: Debian"/"Debian"/'
expect_rejected '0,/"relatedSpdxElement": "[^"]*/s//&-none/'
expect_rejected '$d'
echo "invalid documents are rejected"
