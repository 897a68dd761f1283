#!/usr/bin/env bash
# Builds the packages from release/, docs/ and the language packages: packages/build.sh DIR
#
#     hidlog-VERSION-linux-{x86_64,aarch64}.tar.gz  the program, the C library, man page, completions, documents; for
#                                           x86-64 also hidlog-uhid
#     hidlog_VERSION_{amd64,arm64}.deb      the program, its man page, completions for bash, zsh and fish, documents
#     libhidlog1_VERSION_{amd64,arm64}.deb  the shared library
#     libhidlog-dev_VERSION_{amd64,arm64}.deb  the headers, the static library, examples, a file for pkg-config
#     hidlog-uhid_VERSION_amd64.deb         the key as a virtual USB device
#     python3-hidlog_VERSION_amd64.deb      the Python package, with its commands
#     hidlog-portable-VERSION.tar.gz        the C library's sources for every other system
#     hidlog-VERSION-windows-x86_64.zip     the program and the C library for Windows
#     hidlog-VERSION-*.whl, .tar.gz         the Python package, for Linux on x86-64 and aarch64, and for Windows
#     hidlog-VERSION.tgz                    for npm: the key in a page, and the command
#     hidlog-go-VERSION.zip                 the Go module, as in a module proxy
#     hidlog-VERSION.crate, hidlog-sys-VERSION.crate  the Rust crates
#     hidlog-VERSION.spdx.json              contents of the packages, in SPDX 2.3
#     hidlog-VERSION.provenance.json        sources and build commands, in in-toto and SLSA
#
# Builds are reproducible. Needs tar, gzip, dpkg-deb, Python 3.11 and hatchling. Some packages need more: hidlog-uhid
# needs gcc and libssl-dev, aarch64 needs a linker (lld, or binutils-aarch64-linux-gnu), the portable library needs
# wabt, and Windows needs gcc-mingw-w64-x86-64. If one of these is missing, prints which packages are skipped.
set -euo pipefail
[ $# = 1 ] || { echo "usage: packages/build.sh DIR" >&2; exit 2; }
top=$(cd "$(dirname "${BASH_SOURCE[0]}")/.." && pwd)
mkdir -p "$1"
to=$(cd "$1" && pwd)
for tool in dpkg-deb python3 gzip tar; do
    command -v "$tool" >/dev/null || { echo "packages: $tool is missing; nothing was built" >&2; exit 3; }
done
(cd "$top/release" && sha256sum --quiet --check SHA256SUMS) || {
    echo "packages: a file of release/ does not match release/SHA256SUMS: run packages/build_release.sh" >&2
    exit 1
}
version=$(sed -n 's/^version: //p' "$top/release/BUILD")
# Give all files in the packages one timestamp, the date of the man page, so that builds are reproducible.
SOURCE_DATE_EPOCH=$(date -u -d "$(sed -n 's/^\.Dd //p' "$top/docs/use/hidlog.1")" +%s)
export SOURCE_DATE_EPOCH
# shellcheck disable=SC2034 # debian.sh reads it
maintainer="Cogtzil maintainers <maintainers@users.noreply.cogtzil.example>"
work=$(mktemp -d)
trap 'rm -rf "$work"' EXIT
umask 022

install_file() {
    install -D -m "$1" "$top/$2" "$3"
}

# Installs the completions for bash, zsh and fish below ROOT: install_completions ROOT
install_completions() {
    install -D -m 644 "$work/completions/hidlog.bash" "$1/bash-completion/completions/hidlog"
    install -D -m 644 "$work/completions/_hidlog" "$1/zsh/vendor-completions/_hidlog"
    install -D -m 644 "$work/completions/hidlog.fish" "$1/fish/vendor_completions.d/hidlog.fish"
}

# Installs the documents and example logs below ROOT, at the paths that the man page names: install_documents ROOT
install_documents() {
    local name
    "$top/packages/documents.py" "$1" LOG_FORMAT EXPLAINED PROFILE TESTING_YOUR_SERVICE WEBDRIVER TOUR TROUBLESHOOTING \
        CAPTURES LIMITS CLIENTS LOAD
    for name in "$top"/examples/*.log "$top"/examples/*.snapshot; do
        install_file 644 "examples/${name##*/}" "$1/examples/${name##*/}"
    done
    install_file 644 bindings/python/src/hidlog/shrink.py "$1/examples/shrink.py"
}

# Installs the sources of the C examples in DIR: install_c_examples DIR
install_c_examples() {
    local name
    for name in "$top"/examples/c/*.[ch]; do
        install_file 644 "examples/c/${name##*/}" "$1/${name##*/}"
    done
}

# Compiles the program hidlog-uhid. If gcc or libssl-dev is missing, says so and returns 1.
compile_uhid() {
    local flags=(-std=c11 -O2 -D_FORTIFY_SOURCE=2 -fstack-protector-strong -fPIE -pie -s "-Wl,-z,relro,-z,now")
    if ! command -v gcc >/dev/null || ! echo '#include <openssl/evp.h>' | gcc -E - >/dev/null 2>&1; then
        echo "packages: skipping hidlog-uhid, since gcc or libssl-dev is missing (apt-get install gcc libssl-dev)" >&2
        return 1
    fi
    (cd "$top" && gcc "${flags[@]}" -Wl,--build-id=none "-DHIDLOG_VERSION=\"$version\"" -I release -I examples/c \
        -I bridges/ssh -o "$work/hidlog-uhid.program" bridges/uhid/*.c bridges/ssh/state.c \
        examples/c/{virtual_key,private_file,software_keys,snapshot}.c release/libhidlog.a -lcrypto)
}

# Installs the file for pkg-config that describes a library in a tarball's directory: install_pkg_config DIR NAME
install_pkg_config() {
    mkdir -p "$1/lib/pkgconfig"
    sed -e "s|^prefix=.*|prefix=\${pcfiledir}/../..|" -e "s|^Cflags: -I[^ ]*|Cflags: -I\${prefix}/include|" \
        -e "s|^Libs:.*|Libs: -L\${prefix}/lib -l$2|" "$top/release/$2.pc" >"$1/lib/pkgconfig/$2.pc"
}

# Builds a tarball with the program, the library and the documents: build_tarball PROCESSOR PROGRAM SHARED STATIC
build_tarball() {
    local folder=hidlog-$version name
    local root=$work/tarball_$1/$folder
    install_file 755 "$2" "$root/bin/hidlog"
    install -D -m 755 "$(cd "$top" && realpath "$3")" "$root/lib/libhidlog.so.1"
    install_file 644 "$4" "$root/lib/libhidlog.a"
    ln -s libhidlog.so.1 "$root/lib/libhidlog.so"
    install_file 644 release/hidlog.h "$root/include/hidlog.h"
    install_file 644 release/hidlog_recording.h "$root/include/hidlog_recording.h"
    install_file 644 release/hidlog_standard.h "$root/include/hidlog_standard.h"
    install_pkg_config "$root" hidlog
    if [ "$1" = x86_64 ]; then
        install -D -m 755 "$top/release/libhidlog-256.so.1" "$root/lib/libhidlog-256.so.1"
        install_file 644 release/libhidlog-256.a "$root/lib/libhidlog-256.a"
        ln -s libhidlog-256.so.1 "$root/lib/libhidlog-256.so"
        install_pkg_config "$root" hidlog-256
    fi
    install_file 644 docs/use/hidlog.1 "$root/share/man/man1/hidlog.1"
    install_completions "$root/share"
    install_documents "$root"
    install_c_examples "$root/examples/c"
    if [ "$1" = x86_64 ] && [ -e "$work/hidlog-uhid.program" ]; then
        install -D -m 755 "$work/hidlog-uhid.program" "$root/bin/hidlog-uhid"
        install_file 644 docs/use/hidlog-uhid.8 "$root/share/man/man8/hidlog-uhid.8"
        install_file 644 packages/uhid/70-hidlog.rules "$root/share/hidlog-uhid/70-hidlog.rules"
        install_file 644 packages/uhid/hidlog-uhid@.service "$root/share/hidlog-uhid/hidlog-uhid@.service"
        install_file 644 packages/uhid/hidlog-uhid.conf "$root/share/hidlog-uhid/hidlog-uhid.conf"
    fi
    for name in LICENSE-APACHE LICENSE-MIT packages/NOTICE CHANGELOG.md release/BUILD; do
        install_file 644 "$name" "$root/$(basename "$name")"
    done
    print_readme "$1" >"$root/README.md"
    tar -C "$work/tarball_$1" --sort=name --owner=0 --group=0 --numeric-owner --mtime="@$SOURCE_DATE_EPOCH" -cf - "$folder" |
        gzip -9n >"$to/$folder-linux-$1.tar.gz"
}

# Prints the README of the tarball for a processor: print_readme PROCESSOR
print_readme() {
    if [ "$1" = x86_64 ]; then
        cat "$top/packages/readme/tarball.md"
        return
    fi
    # For aarch64, leave out hidlog-uhid and the library for 256 credentials, which exist only for x86-64.
    sed -e 's/^For x86-64 Linux/For aarch64 (arm64) Linux/' -e 's/; .hidlog-256. has capacity.* |$/ |/' -e '/^| .bin.hidlog-uhid/d' \
        -e '/^## A virtual USB device/,/^root, a systemd unit/d' -e 's/, and the udev rule.*hidlog-uhid |/ |/' \
        "$top/packages/readme/tarball.md" | cat -s
}

# shellcheck disable=SC1091 # it is beside this file
source "$top/packages/debian.sh"

# Builds the npm package: a tarball whose files are in a directory named package.
build_npm_package() {
    local folder=$work/npm/package name
    for name in security_key.js security_key.mjs security_key.d.ts security_key.d.mts; do
        install_file 644 "bindings/web/dist/$name" "$folder/$name"
    done
    for name in security_key.cjs security_key.d.cts browser.mjs node.mjs node.cjs node18.mjs README.md; do
        install_file 644 "packages/npm/$name" "$folder/$name"
    done
    install_file 755 packages/npm/cli.mjs "$folder/cli.mjs"
    install_file 644 packages/npm/wasm.mjs "$folder/wasm.mjs"
    install_file 644 bindings/python/src/hidlog/help.txt "$folder/help.txt"
    install_file 755 release/hidlog "$folder/linux-x64/hidlog"
    install_file 644 packages/npm/NOTICE "$folder/NOTICE"
    install_file 644 release/hidlog.wasm "$folder/hidlog.wasm"
    install_file 644 bindings/web/core.js "$folder/core.js"
    install_file 644 bindings/web/dist/bytes.js "$folder/bytes.js"
    for name in LICENSE-APACHE LICENSE-MIT CHANGELOG.md; do
        install_file 644 "$name" "$folder/$name"
    done
    sed "s/VERSION/$version/" "$top/packages/npm/package.json" >"$folder/package.json"
    tar -C "$work/npm" --sort=name --owner=0 --group=0 --numeric-owner --mtime="@$SOURCE_DATE_EPOCH" -cf - package |
        gzip -9n >"$to/hidlog-$version.tgz"
}

# Installs the sources of the portable C library in DIR, if they have been generated: install_portable_sources DIR
install_portable_sources() {
    local name
    [ -z "${HIDLOG_PORTABLE-}" ] || for name in hidlog.c hidlog_module.h machine.h hidlog.h; do
        install -D -m 644 "$HIDLOG_PORTABLE/$name" "$1/$name"
    done
}

# Builds the Go module as a zip, as module proxies serve it: each path in it starts with the module's path and version.
build_go_module() {
    local folder=$work/go/cogtzil.example/hidlog@v$version
    mkdir -p "$folder/lib"
    (cd "$top/bindings/go" && git ls-files -co --exclude-standard 2>/dev/null || find . -type f) |
        sed 's|^\./||' | sort |
        while read -r name; do install_file 644 "bindings/go/$name" "$folder/$name"; done
    install_file 644 release/hidlog.h "$folder/lib/hidlog.h"
    install_file 644 release/libhidlog.a "$folder/lib/amd64/libhidlog.a"
    install_file 644 release/aarch64/libhidlog.a "$folder/lib/arm64/libhidlog.a"
    install_portable_sources "$folder/lib/portable"
    cat "$top/LICENSE-MIT" >"$folder/LICENSE-MIT"
    cat "$top/LICENSE-APACHE" >"$folder/LICENSE-APACHE"
    python3 "$top/packages/zip.py" "$work/go" "$to/hidlog-go-$version.zip"
}

# Builds the file NAME-VERSION.crate of a Rust crate: build_crate NAME
build_crate() {
    local folder=$work/crates/$1-$version
    mkdir -p "$folder"
    (cd "$top/bindings/rust/$1" && find . -type f -not -path './target/*' -not -name Cargo.lock) |
        sed 's|^\./||' | sort |
        while read -r name; do install_file 644 "bindings/rust/$1/$name" "$folder/$name"; done
    install_file 644 LICENSE-MIT "$folder/LICENSE-MIT"
    install_file 644 LICENSE-APACHE "$folder/LICENSE-APACHE"
    if [ "$1" = hidlog-sys ]; then
        install_file 644 release/hidlog.h "$folder/lib/hidlog.h"
        install_file 644 release/libhidlog.a "$folder/lib/x86_64/libhidlog.a"
        install_file 644 release/aarch64/libhidlog.a "$folder/lib/aarch64/libhidlog.a"
        install_portable_sources "$folder/lib/portable"
    fi
    sed -i "s|path = \"../hidlog-sys\"|path = \"../hidlog-sys-$version\"|" "$folder/Cargo.toml"
    tar -C "$work/crates" --sort=name --owner=0 --group=0 --numeric-owner --mtime="@$SOURCE_DATE_EPOCH" -cf - \
        "$1-$version" | gzip -9n >"$to/$1-$version.crate"
}

"$top/packages/completions.py" "$top/release/hidlog" "$work/completions"
! compile_uhid || build_uhid_package
build_tarball x86_64 release/hidlog release/libhidlog.so.1 release/libhidlog.a
build_program_package amd64 release/hidlog
build_library_packages amd64 x86_64-linux-gnu release/libhidlog.so.1 release/libhidlog.a
if link_aarch64; then
    build_library_packages arm64 aarch64-linux-gnu "$work/aarch64/libhidlog.so.1" release/aarch64/libhidlog.a
    if [ -e "$top/release/aarch64/hidlog" ]; then
        build_tarball aarch64 release/aarch64/hidlog "$work/aarch64/libhidlog.so.1" release/aarch64/libhidlog.a
        build_program_package arm64 release/aarch64/hidlog
    fi
fi
if command -v wasm2c >/dev/null; then
    "$top/bindings/c/build.sh" "$to" "$work/portable"
    export HIDLOG_PORTABLE=$work/portable
else
    echo "packages: skipping the portable C library, its copies in the Go and Rust packages, and the packages for Windows, since wasm2c is missing (apt-get install wabt)" >&2
fi
build_npm_package
build_go_module
build_crate hidlog-sys
build_crate hidlog
"$top/bindings/python/build.sh" "$to" >/dev/null
build_python_package
python3 "$top/packages/statements.py" "$to"
(cd "$to" && sha256sum ./*"$version"* >SHA256SUMS && cat SHA256SUMS)
