#!/usr/bin/env bash
# Tests the C library with programs in C, Go, Rust and C++, which create a key, send INIT and print the response. Then
# tests the Go module and the Rust crates with their packages, as their READMEs describe. If a language is not
# installed, prints that it is skipped. Downloads nothing.
#
#     tests/clients/languages.sh [arm64]      with arm64, also runs the Go module's tests for arm64 in qemu
# shellcheck disable=SC1091,SC2154 # top, name and library are set by common.sh
set -euo pipefail
source "$(dirname "${BASH_SOURCE[0]}")/common.sh"
require_commands gcc "gcc libc6-dev" nm binutils
require_in_memory_key
work=$(mktemp -d)
trap 'rm -rf "$work"' EXIT
# The expected response packet: INIT on the broadcast channel with 17 bytes, which are the nonce, channel 1, protocol
# version 2, device version 1.0.0 and the capabilities CBOR and NMSG. Zeros follow.
expected=$(printf '%-128s' ffffffff860011010203040506070800000001020100000c | tr ' ' 0)
machine=${1-}
ran=0

# Returns whether a command exists. If not, prints that LANGUAGE is skipped: is_installed LANGUAGE COMMAND PACKAGE
is_installed() {
    command -v "$2" >/dev/null || { echo "$name: $1 is skipped, since $2 is missing (apt-get install $3)" && false; }
}

# Runs a program, and compares its output with the expected response: run_and_compare LANGUAGE VERSION PROGRAM ..
run_and_compare() {
    local response
    response=$("${@:3}")
    echo "$name: from $1 ($2): $response"
    [ "$response" = "$expected" ] || fail "$1: expected the response $expected, got $response"
    ran=$((ran + 1))
}

# Tests the Go module as bindings/go/README.md describes: creates a new module with the README's test, which installs
# the Go module from the zip in PACKAGES. Then makes the calls that were recorded from Chromium (browser_cases.py), and
# runs the module's own tests and `go vet`. FOLDER is for temporary files: test_go_module PACKAGES FOLDER
test_go_module() (
    packages=$1 work=$2
    # GONOSUMDB prevents that go asks the checksum database for the module.
    export GOCACHE=$work/cache GOPATH=$work/path GOFLAGS="-p=2 -modcacherw" GONOSUMDB=cogtzil.example GOTOOLCHAIN=local CGO_ENABLED=1 GO111MODULE=on
    export HIDLOG_PROGRAM=$top/release/hidlog
    cd "$work"
    cp "$packages"/hidlog-go-*.zip .
    file=$(basename hidlog-go-*.zip .zip)
    # Run the commands below "Install" in the README, with the version that the zip's name has.
    sed -n '/^## Install/,/^## A test/s/^    //p' "$top/bindings/go/README.md" | grep -v '^go get' |
        sed "s/0\.2\.0/${file#hidlog-go-}/g" >install.sh
    # shellcheck disable=SC1091 # it is generated above
    source install.sh
    mkdir -p example && cd example
    go mod init example 2>/dev/null
    awk '/^```/ { n++; next } n == 1' "$top/bindings/go/README.md" >sign_in_test.go
    go get "cogtzil.example/hidlog@v${file#hidlog-go-}" 2>/dev/null
    go test -v ./... >"$work/output" 2>&1 || { cat "$work/output" && exit 1; }
    grep -q 'send it to your service: {' "$work/output"
    mkdir -p cases && cp "$top/tests/clients/cases/server.go" cases/main.go
    go build -o "$work/cases" ./cases
    "$top/tests/clients/browser_cases.py" go "$work/cases"
    unformatted=$(gofmt -l "$top/bindings/go")
    [ -z "$unformatted" ] || { echo "gofmt: $unformatted" && exit 1; }
    (cd "$(go list -m -f '{{.Dir}}' cogtzil.example/hidlog)" && go vet . && go test -count=1 ./... | sed 's/^/Go module: /')
    if [ "$machine" = arm64 ]; then
        cd "$(go list -m -f '{{.Dir}}' cogtzil.example/hidlog)"
        GOARCH=arm64 CC=aarch64-linux-gnu-gcc go test -count=1 -exec "qemu-aarch64-static -L /usr/aarch64-linux-gnu" ./... |
            sed 's/^/Go module for arm64: /'
    fi
)

# Tests the Rust crates as bindings/rust/hidlog/README.md describes: creates a new crate with the README's test, and
# unpacks the crates in PACKAGES beside it. Then makes the calls that were recorded from Chromium (browser_cases.py),
# and runs the tests of the crate hidlog with and without OpenSSL, and clippy and rustfmt if they are installed. FOLDER
# is for temporary files: test_rust_crates PACKAGES FOLDER
test_rust_crates() (
    packages=$1 work=$2
    export CARGO_TARGET_DIR=$work/target CARGO_NET_OFFLINE=true CARGO_BUILD_JOBS=2 HIDLOG_PROGRAM=$top/release/hidlog
    cd "$work"
    cp "$packages"/*.crate .
    version=$(basename hidlog-sys-*.crate .crate)
    sed -n '/^## Install/,/^## A test/s/^    //p' "$top/bindings/rust/hidlog/README.md" |
        sed "s/0\.2\.0/${version#hidlog-sys-}/g; s/cargo new/& --quiet --vcs none/" >install.sh
    # shellcheck disable=SC1091 # it is generated above
    source install.sh
    awk '/^```/ { n++; next } n == 1' "$top/bindings/rust/hidlog/README.md" >src/lib.rs
    cargo test --quiet --offline -- --nocapture >"$work/output" 2>&1 || { cat "$work/output" && exit 1; }
    grep -q 'send it to your service: {' "$work/output"
    mkdir -p src/bin && cp "$top/tests/clients/cases/server.rs" src/bin/cases.rs
    cargo build --quiet --offline --bin cases
    "$top/tests/clients/browser_cases.py" rust "$CARGO_TARGET_DIR/debug/cases"
    cd "$work/hidlog-${version#hidlog-sys-}"
    for words in "" --no-default-features; do
        # shellcheck disable=SC2086 # no word is no word
        cargo test --offline $words >"$work/output" 2>&1 || { cat "$work/output" && exit 1; }
        echo "Rust crate${words:+, $words}: $(grep -c '^test .* ok$' "$work/output") tests passed"
    done
    if cargo clippy --version >/dev/null 2>&1; then
        # Debian 12's clippy is wrong about a clone that is used, and about threads that are started before any is joined.
        cargo clippy --quiet --offline --all-targets -- -D warnings -A clippy::redundant-clone -A clippy::needless-collect
    fi
    if cargo fmt --version >/dev/null 2>&1; then
        (cd "$top/bindings/rust/hidlog-sys" && cargo fmt --check) && (cd "$top/bindings/rust/hidlog" && cargo fmt --check)
        rm -f "$top"/bindings/rust/*/Cargo.lock
    fi
)

cd "$work"
if is_installed Go go golang-go; then
    export GOCACHE=$work/cache GOPATH=$work/path GOFLAGS=-p=1 GO111MODULE=off CGO_ENABLED=1
    CGO_CFLAGS="-I$library" CGO_LDFLAGS="$library/libhidlog.a" go build -o go_init "$top/examples/c/init.go"
    run_and_compare Go "$(go version | cut -d' ' -f3)" ./go_init
fi
if is_installed Rust rustc rustc; then
    rustc --edition 2021 -D warnings -C "link-arg=$library/libhidlog.a" -o rust_init "$top/examples/c/init.rs"
    run_and_compare Rust "$(rustc --version | cut -d' ' -f2)" ./rust_init
fi
gcc -std=c11 -O2 -Wall -Wextra -Wpedantic -Werror -I "$library" -o c_init "$top/examples/c/init.c" "$library/libhidlog.a"
run_and_compare C "gcc $(gcc -dumpfullversion)" ./c_init
if is_installed C++ g++ g++; then
    g++ -std=c++17 -O2 -Wall -Wextra -Wpedantic -Werror -I "$library" -o cpp_init "$top/examples/c/init.cpp" \
        "$library/libhidlog.a"
    run_and_compare C++ "g++ $(g++ -dumpfullversion)" ./cpp_init
fi

# Builds the packages, and tests the Go module and the Rust crates if go and cargo are installed.
if command -v dpkg-deb >/dev/null && /usr/bin/python3 -c 'import hatchling' 2>/dev/null; then
    "$top/packages/build.sh" "$work/packages" >/dev/null
    if is_installed "the Go module" go golang-go; then
        mkdir "$work/go"
        test_go_module "$work/packages" "$work/go"
    fi
    if is_installed "the Rust crates" cargo cargo && { require_header openssl/evp.h libssl-dev; }; then
        mkdir "$work/rust"
        test_rust_crates "$work/packages" "$work/rust"
    fi
fi
