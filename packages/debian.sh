# shellcheck shell=bash
# Functions that build the Debian packages; packages/build.sh sources this file.
# shellcheck disable=SC2154 # top, work, to, version and maintainer are set by build.sh

# Returns whether a package contains the static program hidlog, which includes parts of the GNU C library: has_program
# NAME
has_program() {
    [ "$1" = hidlog ]
}

# Prints the file debian/copyright of a package, which lists its licenses: print_copyright NAME
print_copyright() {
    echo "Format: https://www.debian.org/doc/packaging-manuals/copyright-format/1.0/"
    echo "Upstream-Name: hidlog"
    echo
    echo "Files: *"
    echo "Copyright: 2026 Cogtzil maintainers"
    echo "License: Apache-2.0 or Expat"
    echo
    if has_program "$1"; then
        echo "Files: usr/lib/hidlog/hidlog"
        echo "Copyright: 2026 Cogtzil maintainers"
        echo " 1991-2022 Free Software Foundation, Inc."
        echo "License: Apache-2.0 or Expat, and LGPL-2.1+"
        echo "Comment: The program contains parts of the GNU C Library of Debian's libc6-dev, linked statically."
        echo " Their source is Debian's source package glibc. How the program is linked is in"
        echo " packages/build_release.sh of hidlog's sources, so that it can be linked with another C library."
        echo
    fi
    echo "License: Apache-2.0"
    echo " On Debian systems the text is in /usr/share/common-licenses/Apache-2.0."
    echo
    echo "License: Expat"
    sed 1,4d "$top/LICENSE-MIT" | sed 's/^$/./; s/^/ /'
    if has_program "$1"; then
        echo
        echo "License: LGPL-2.1+"
        echo " On Debian systems the text is in /usr/share/common-licenses/LGPL-2.1."
    fi
}

# Installs the license and the changelog of a package in its root directory: install_common_files NAME ROOT
install_common_files() {
    local docs=$2/usr/share/doc/$1
    mkdir -p "$docs"
    print_copyright "$1" >"$docs/copyright"
    {
        echo "hidlog ($version) unstable; urgency=low"
        echo
        echo "  * The release $version: see the file CHANGELOG.md of the sources."
        echo
        echo " -- $maintainer  $(date -u -R -d "@$SOURCE_DATE_EPOCH")"
    } | gzip -9n >"$docs/changelog.gz"
}

# Makes lintian accept a tag for a package, and records the reason: add_lintian_override NAME ROOT REASON TAG
add_lintian_override() {
    mkdir -p "$2/usr/share/lintian/overrides"
    printf '# %s\n%s: %s\n' "$3" "$1" "$4" >>"$2/usr/share/lintian/overrides/$1"
}

# Installs the maintainer script on standard input, such as postinst, in a package: install_maintainer_script ROOT NAME
install_maintainer_script() {
    mkdir -p "$1/DEBIAN"
    cat >"$1/DEBIAN/$2"
    chmod 755 "$1/DEBIAN/$2"
}

# Builds a package from the files that were installed in its root directory: build_package NAME PROCESSOR SECTION
# DEPENDS SUMMARY DESCRIPTION
build_package() {
    local root=$work/$2/$1
    install_common_files "$1" "$root"
    mkdir -p "$root/DEBIAN"
    {
        printf '%s\n' "Package: $1" "Source: hidlog" "Version: $version" "Architecture: $2" "Maintainer: $maintainer"
        printf '%s\n' "Section: $3" "Priority: optional" "Installed-Size: $(du -sk --apparent-size "$root/usr" | cut -f1)"
        [ -z "$4" ] || echo "Depends: $4"
        [ "$1" != libhidlog1 ] && [ "$1" != libhidlog-dev ] || echo "Multi-Arch: same"
        printf 'Description: %s\n' "$5"
        fold -s -w 76 <<<"$6" | sed 's/ *$//; s/^/ /'
    } >"$root/DEBIAN/control"
    (cd "$root" && find . -path ./DEBIAN -prune -o -type f -printf '%P\0' | sort -z | xargs -0 md5sum >DEBIAN/md5sums)
    find "$root" -exec touch -h -d "@$SOURCE_DATE_EPOCH" {} +
    dpkg-deb --root-owner-group -Zxz --build "$root" "$to/$1_${version}_$2.deb" >/dev/null
}

# Prints the script /usr/bin/hidlog of the package hidlog: it runs the verified program, or the package python3-hidlog
# if that has the command.
print_launcher() {
    cat <<'END'
#!/bin/sh
# The command hidlog: runs the verified program, or the package python3-hidlog if that has the command.
program=/usr/lib/hidlog/hidlog

run_python() {
    if [ ! -x /usr/lib/python3-hidlog/hidlog ]; then
        [ "$1" != check ] || set -- "check --signatures"
        echo "hidlog: $1 is a command of the Python package: install python3-hidlog, or hidlog with pip" >&2
        exit 2
    fi
    exec /usr/lib/python3-hidlog/hidlog "$@"
}

END
    sed 1d "$top/packages/command.sh"
}

# Builds the package hidlog, which has the program: build_program_package PROCESSOR PROGRAM
build_program_package() {
    local root=$work/$1/hidlog
    install_file 755 "$2" "$root/usr/lib/hidlog/hidlog"
    mkdir -p "$root/usr/bin"
    print_launcher >"$root/usr/bin/hidlog"
    chmod 755 "$root/usr/bin/hidlog"
    install_file 644 docs/use/hidlog.1 "$root/usr/share/man/man1/hidlog.1"
    gzip -9n "$root/usr/share/man/man1/hidlog.1"
    install_completions "$root/usr/share"
    install_documents "$root/usr/share/doc/hidlog"
    install_file 644 packages/readme/hidlog.md "$root/usr/share/doc/hidlog/README.md"
    # lintian reports a static program. If the program is position-independent (ELF type 3), lintian takes it for a
    # shared library without dependencies, and reports another tag.
    local tag=statically-linked-binary
    [ "$(od -An -t u1 -j 16 -N 1 "$top/$2" | tr -d ' ')" != 3 ] || tag=shared-library-lacks-prerequisites
    add_lintian_override hidlog "$root" "It runs on any Linux, with any C library." "$tag [usr/lib/hidlog/hidlog]"
    build_package hidlog "$1" utils "" "FIDO2 security key in software, for tests" \
        "Replays, checks and shows session logs of FIDO2 security keys (CTAP 2.1)."
}

# Links the C library as a shared library for aarch64. Without a linker, prints which one is missing, and returns 1.
link_aarch64() {
    local linker
    linker=$(command -v aarch64-linux-gnu-ld || command -v ld.lld) || {
        echo "packages: skipping the packages and the tarball for arm64, since no linker for aarch64 was found (apt-get install lld)" >&2
        return 1
    }
    mkdir -p "$work/aarch64"
    "$linker" -m aarch64linux -shared -soname libhidlog.so.1 -z relro -z now --strip-all \
        -o "$work/aarch64/libhidlog.so.1" --whole-archive "$top/release/aarch64/libhidlog.a"
}

# Builds the packages libhidlog1 and libhidlog-dev: build_library_packages PROCESSOR TRIPLE SHARED STATIC
build_library_packages() {
    local root=$work/$1/libhidlog1 libraries=usr/lib/$2
    install -D -m 644 "$(cd "$top" && realpath "$3")" "$root/$libraries/libhidlog.so.1"
    add_lintian_override libhidlog1 "$root" "It calls memcpy, memmove and memset of the program that loads it." \
        "shared-library-lacks-prerequisites [$libraries/libhidlog.so.1]"
    mkdir -p "$root/DEBIAN"
    echo "libhidlog 1 libhidlog1 (>= $version)" >"$root/DEBIAN/shlibs"
    echo "activate-noawait ldconfig" >"$root/DEBIAN/triggers"
    build_package libhidlog1 "$1" libs "" "FIDO2 security key as a library, for tests" \
        "An in-memory FIDO2 security key for C programs, and functions on session logs."
    root=$work/$1/libhidlog-dev
    install_file 644 release/hidlog.h "$root/usr/include/hidlog.h"
    install_file 644 release/hidlog_recording.h "$root/usr/include/hidlog_recording.h"
    install_file 644 release/hidlog_standard.h "$root/usr/include/hidlog_standard.h"
    install -D -m 644 "$top/$4" "$root/$libraries/libhidlog.a"
    ln -s libhidlog.so.1 "$root/$libraries/libhidlog.so"
    mkdir -p "$root/$libraries/pkgconfig"
    sed -e "s|^prefix=.*|prefix=/usr|" -e "s|^Cflags:.*|Cflags:|" -e "s|^Libs:.*|Libs: -lhidlog|" \
        "$top/release/hidlog.pc" >"$root/$libraries/pkgconfig/hidlog.pc"
    install_c_examples "$root/usr/share/doc/libhidlog-dev/examples"
    install_file 644 packages/readme/libhidlog-dev.md "$root/usr/share/doc/libhidlog-dev/README.md"
    build_package libhidlog-dev "$1" libdevel "libhidlog1 (= $version)" \
        "FIDO2 security key as a library, headers and static library" "Files for building programs with libhidlog."
}

# Builds the package hidlog-uhid from the program that compile_uhid has compiled, which depends on Debian 12's versions
# of the C library and of OpenSSL.
build_uhid_package() {
    local root=$work/amd64/hidlog-uhid
    install -D -m 755 "$work/hidlog-uhid.program" "$root/usr/bin/hidlog-uhid"
    install_file 644 docs/use/hidlog-uhid.8 "$root/usr/share/man/man8/hidlog-uhid.8"
    gzip -9n "$root/usr/share/man/man8/hidlog-uhid.8"
    install_file 644 packages/uhid/70-hidlog.rules "$root/lib/udev/rules.d/70-hidlog.rules"
    install_file 644 packages/uhid/hidlog-uhid@.service "$root/lib/systemd/system/hidlog-uhid@.service"
    install_file 644 packages/uhid/hidlog-uhid.conf "$root/usr/lib/sysusers.d/hidlog-uhid.conf"
    install_file 644 packages/readme/hidlog-uhid.md "$root/usr/share/doc/hidlog-uhid/README.md"
    # The script creates the user of the systemd unit, if systemd is installed. It also makes udev read its rules again,
    # since udev may have read them before their group existed.
    install_maintainer_script "$root" postinst <<'END'
#!/bin/sh
set -e
if [ "$1" = configure ] && command -v systemd-sysusers >/dev/null; then
    systemd-sysusers hidlog-uhid.conf
fi
if [ "$1" = configure ] && command -v udevadm >/dev/null; then
    udevadm control --reload || true
fi
END
    add_lintian_override hidlog-uhid "$root" "The key is software: there is no hardware that needs the package." \
        "appstream-metadata-missing-modalias-provide *"
    build_package hidlog-uhid amd64 utils "libc6 (>= 2.34), libssl3 (>= 3.0.0), kmod" \
        "FIDO2 security key as a virtual USB device, for tests" \
        "Creates a software security key with /dev/uhid, for browsers, OpenSSH and PAM."
}

# Builds the package python3-hidlog from the wheel for x86-64. Adds the script that runs the package's commands, which
# /usr/bin/hidlog of the package hidlog calls.
build_python_package() {
    local root=$work/amd64/python3-hidlog place name
    place=$root/usr/lib/python3/dist-packages
    mkdir -p "$place" "$root/usr/lib/python3-hidlog"
    python3 -m zipfile -e "$to"/hidlog-"$version"-*x86_64.whl "$place"
    rm "$place/hidlog/hidlog" "$place/hidlog/libhidlog.so.1" "$place"/hidlog-*.dist-info/RECORD
    rm -rf "$place"/hidlog-*.dist-info/licen?es
    find "$place" -type d -exec chmod 755 {} +
    find "$place" -type f -exec chmod 644 {} +
    ln -s ../../../hidlog/hidlog "$place/hidlog/hidlog"
    ln -s ../../../x86_64-linux-gnu/libhidlog.so.1 "$place/hidlog/libhidlog.so.1"
    printf '%s\n' '#!/usr/bin/python3' 'import sys' '' 'from hidlog.__main__ import main' '' 'sys.exit(main())' \
        >"$root/usr/lib/python3-hidlog/hidlog"
    chmod 755 "$root/usr/lib/python3-hidlog/hidlog"
    for name in "$top"/examples/browser_process/* "$top"/examples/python/*.py; do
        install_file 644 "${name#"$top"/}" "$root/usr/share/doc/python3-hidlog/${name#"$top"/}"
    done
    install_file 644 packages/readme/python3-hidlog.md "$root/usr/share/doc/python3-hidlog/README.md"
    install_maintainer_script "$root" postinst <<'END'
#!/bin/sh
set -e
if command -v py3compile >/dev/null; then
    py3compile -p python3-hidlog
fi
END
    install_maintainer_script "$root" prerm <<'END'
#!/bin/sh
set -e
if command -v py3clean >/dev/null; then
    py3clean -p python3-hidlog
fi
END
    build_package python3-hidlog amd64 python "python3 (>= 3.9), python3-cryptography, hidlog (= $version), libhidlog1 (= $version)" \
        "FIDO2 security key for tests of sign-in services (Python 3)" \
        "A browser and a security key in software: fixtures, WebDriver, captures, recordings."
}
