#!/usr/bin/env bash
# Builds these packages of the portable C library in PACKAGES_DIR: bindings/c/build.sh PACKAGES_DIR [SOURCES_DIR]
#
#     hidlog-portable-VERSION.tar.gz        the library's sources, for every system
#     hidlog-VERSION-windows-x86_64.zip     hidlog.exe and hidlog.dll
#
# Builds are reproducible. Needs wabt (exits with 3 if it is missing). The zip for Windows needs gcc-mingw-w64-x86-64,
# and is skipped without it. If SOURCES_DIR is given, copies the sources and hidlog.dll there, too, for the Python, Go
# and Rust packages.
set -euo pipefail
[ $# = 1 ] || [ $# = 2 ] || { echo "usage: bindings/c/build.sh PACKAGES_DIR [SOURCES_DIR]" >&2; exit 2; }
top=$(cd "$(dirname "${BASH_SOURCE[0]}")/../.." && pwd)
mkdir -p "$1"
to=$(cd "$1" && pwd)
version=$(sed -n 's/^version: //p' "$top/release/BUILD")
# Give all files in the packages this timestamp, so that builds are reproducible.
export SOURCE_DATE_EPOCH="${SOURCE_DATE_EPOCH:-315532800}"
work=$(mktemp -d)
trap 'rm -rf "$work"' EXIT
umask 022
name=hidlog-portable-$version
"$top/bindings/c/sources.sh" "$work/$name"
[ $# = 1 ] || "$top/bindings/c/sources.sh" "$2"
tar -C "$work" --sort=name --owner=0 --group=0 --numeric-owner --mtime="@$SOURCE_DATE_EPOCH" -cf - "$name" |
    gzip -9n >"$to/$name.tar.gz"

# Builds the program hidlog and the library for Windows, and packs them, the headers and the documents into a zip.
build_windows() {
    local folder=$work/windows/hidlog-$version file
    local flags=(-std=c11 -O2 -s "-Wl,--no-insert-timestamp")
    mkdir -p "$folder"
    cd "$work/$name"
    x86_64-w64-mingw32-gcc -std=c11 -O2 -c hidlog.c
    # The option --image-base makes the build reproducible: without it, the linker derives the DLL's base address from a
    # hash of its path.
    x86_64-w64-mingw32-gcc "${flags[@]}" -Wl,--image-base=0x180000000 -shared -o "$folder/hidlog.dll" hidlog.o hidlog.def
    x86_64-w64-mingw32-gcc "${flags[@]}" -o "$folder/hidlog.exe" program.c hidlog.o
    for file in README.md LICENSE-{APACHE,MIT} hidlog.def hidlog{,_recording,_standard}.h sign_in.log; do
        cp "$file" "$folder"
    done
    python3 "$top/packages/zip.py" "$work/windows" "$to/hidlog-$version-windows-x86_64.zip"
}

if command -v x86_64-w64-mingw32-gcc >/dev/null; then
    (build_windows)
    [ $# = 1 ] || cp "$work/windows/hidlog-$version/hidlog.dll" "$2"
else
    echo "bindings/c/build.sh: skipping the zip for Windows, since x86_64-w64-mingw32-gcc is missing (apt-get install gcc-mingw-w64-x86-64)" >&2
fi
