#!/usr/bin/env bash
# Builds the files of release/ from the crates that `rt ci` has proved and built in crates/*/out: the program hidlog,
# the C library for x86-64 and aarch64 and as a WebAssembly module, the headers, SHA256SUMS, and BUILD, which lists the
# hashes of the sources and the versions of the tools.
#
#     packages/build_release.sh                writes release/; run it after `rt ci`, and commit the changed files
#     packages/build_release.sh --check        builds the files again, and compares them with release/, byte
#                                              for byte; exits with 1 if a file differs
#     packages/build_release.sh --check all    also builds the files that must be proved again, which takes long: the
#                                              program for aarch64, and the C library for 256 credentials.
#                                              Without `all`, only their hashes are checked
#
# Builds are reproducible, in any folder. Needs the toolchain (rt), gcc, libc6-dev, gcc-aarch64-linux-gnu with
# libc6-dev-arm64-cross, and wasm-opt (binaryen). Without wasm-opt, --check compares the module before its conversion to
# 32-bit memory.
set -euo pipefail
cd "$(dirname "${BASH_SOURCE[0]}")/.."
top=$PWD
kit=$(dirname "$(dirname "$(readlink -f "$(command -v rt)")")")
work=$(mktemp -d)
trap 'rm -rf "$work"' EXIT
made=$work/made
mkdir -p "$made/aarch64"

fail() {
    echo "release: $*" >&2
    exit 1
}

hash_file() {
    sha256sum <"$1" | cut -c1-64
}

# Proves the crate in FOLDER, and builds it for a target as FILE, with the crates that it depends on: build_crate CRATE
# FOLDER ROOT TARGET FILE ARGUMENT .. ROOT is the crate's main source file; the arguments are for `rattle build`. Proofs
# that do not depend on the target are checked only once.
build_crate() {
    local crate=$1 folder=$2 root=$3 target=$4 file=$5 name libraries words
    words=(--crate-name "$crate" "$root" --extern "std=$kit/rlibs/std.rlib" -L "dependency=$kit/rlibs"
        --antt-project "$kit/rattle/logic/antt-project.json" --logic-built "$kit/logic_built" --links "$crate=" "${@:6}")
    read -ra libraries < <(sed -n "s/^$crate\( staticlib\)\{0,1\}://p" crates.txt)
    for name in "${libraries[@]}"; do
        if [ -d "crates/$name" ]; then
            words+=(--extern "$name=$top/crates/$name/out/rlib/$name.rlib")
        else
            words+=(--extern "$name=$kit/rlibs/$name.rlib")
        fi
    done
    for name in $(packages/release_sources.sh | sed -n 's|^crates/\([^/]*\)/src$|\1|p'); do
        if [ -d "crates/$name/out/rlib" ]; then
            words+=(-L "dependency=$top/crates/$name/out/rlib")
        fi
    done
    (cd "$folder" && "$kit/bin/rattle" build "${words[@]}" --incremental "$work/proved${folder//\//_}" --target "$target" \
        --toolchain "$kit/toolchain" --backend llvm -o "$file") >"$work/log" 2>&1 || {
        tail -20 "$work/log" >&2
        fail "$crate could not be built for $target"
    }
}

# Builds the C library in FOLDER for a target as the static library FILE: build_library FOLDER TARGET FILE
build_library() {
    build_crate hidlog_c "$1" src/lib.rt "$2" "$3" --crate-type staticlib
}

# Links the object file that `rt ci` has built into the static program hidlog. If `rt ci` reused the program of an
# earlier run, there is no object file, only a program that rt has linked. Then --check compares that program's hash
# with release/LINKED.
build_program() {
    [ -e crates/hidlog_cli/out/hidlog_cli ] || fail "crates/hidlog_cli/out/hidlog_cli is missing: run rt ci first"
    hash_file crates/hidlog_cli/out/hidlog_cli >"$made/LINKED"
    if [ ! -e crates/hidlog_cli/out/hidlog_cli.o ]; then
        [ "$mode" = --check ] || fail "crates/hidlog_cli/out/hidlog_cli.o is missing: run rt ci --anew first"
        cmp -s release/LINKED "$made/LINKED" ||
            fail "release/LINKED differs from the hash of crates/hidlog_cli/out/hidlog_cli: run packages/build_release.sh"
        echo "same  release/hidlog, by the hash in release/LINKED, since rt kept no object file"
        cp release/hidlog "$made/hidlog"
        return
    fi
    # Link with gcc and Debian's libc.a, since they can make a static program that is position-independent and has
    # read-only relocations.
    gcc -static-pie -Wl,--build-id=none -Wl,-z,relro,-z,now -s -o "$made/hidlog" crates/hidlog_cli/out/hidlog_cli.o \
        "$kit/c/libos_c.a" "$kit/c/liblibc_c.a"
    [[ $(readelf -dW "$made/hidlog") == *"Flags: NOW PIE"* && $(readelf -lW "$made/hidlog") == *GNU_RELRO* ]] ||
        fail "the linked program $made/hidlog is not position-independent, or its relocations are writable"
}

# Prints the hash of the program's object file. If rt has kept no object file, prints the hash that release/BUILD has.
print_object_hash() {
    if [ -e crates/hidlog_cli/out/hidlog_cli.o ]; then
        hash_file crates/hidlog_cli/out/hidlog_cli.o
    else
        sed -n 's/^object: //p' release/BUILD
    fi
}

# Links a shared library from the static library of the same name: build_shared NAME
build_shared() {
    "$kit/toolchain/bin/ld.lld" -shared -soname "$1.so.1" -z relro -z now --strip-all -o "$made/$1.so.1" \
        --whole-archive "$made/$1.a"
}

# Builds the program hidlog for aarch64. It is proved again, since `rt ci` builds no object file for aarch64.
build_program_for_aarch64() {
    build_crate hidlog_cli crates/hidlog_cli src/main.rt aarch64-unknown-linux-gnu "$work/hidlog_aarch64.o"
    packages/arm64/link.sh "$work/hidlog_aarch64.o" "$made/aarch64/hidlog"
}

# Builds the C library for keys of 256 credentials, from a copy of the sources in which the constant CAPACITY is
# changed.
build_large_library() {
    local large=$work/hidlog_c_256
    mkdir "$large"
    cp -r crates/hidlog_c/src crates/hidlog_c/specs crates/hidlog_c/proofs "$large"
    sed -i 's/^pub const CAPACITY: usize = 64;$/pub const CAPACITY: usize = 256;/' "$large/src/capacity.rt"
    grep -q '^pub const CAPACITY: usize = 256;$' "$large/src/capacity.rt" ||
        fail "crates/hidlog_c/src/capacity.rt: expected the line 'pub const CAPACITY: usize = 64;'"
    build_library "$large" x86_64-unknown-linux-gnu "$made/libhidlog-256.a"
    build_shared libhidlog-256
}

# Builds the C library as a WebAssembly module, which has a memory with 64-bit addresses, and converts it to 32-bit
# addresses with wasm-opt, since node 20 and many browsers support only those.
build_module() {
    build_library crates/hidlog_c wasm64-unknown-unknown "$work/module.a"
    "$kit/bin/rattle-link" --target wasm64-unknown-unknown --toolchain "$kit/toolchain" --stack 524288 \
        -o "$work/module.wasm" "$work/module.a"
    if command -v wasm-opt >/dev/null; then
        wasm-opt --enable-memory64 --enable-bulk-memory --memory64-lowering --disable-memory64 -o "$made/hidlog.wasm" \
            "$work/module.wasm"
    elif [ "$mode" = --check ]; then
        cp release/hidlog.wasm "$made/hidlog.wasm"
    else
        fail "wasm-opt is missing (apt-get install binaryen)"
    fi
}

# Prints the version of wasm-opt. If wasm-opt is not installed, prints the version that release/BUILD has.
print_wasm_opt_version() {
    if command -v wasm-opt >/dev/null; then
        wasm-opt --version
    else
        sed -n 's/^lowered by: //p' release/BUILD
    fi
}

# Prints the version of a C compiler, and the hash of the libc.a that it links: describe_linker COMPILER
describe_linker() {
    echo "gcc $("$1" -dumpfullversion), $(sha256sum <"$("$1" -print-file-name=libc.a)" | cut -c1-16) libc.a"
}

# Prints the line of release/BUILD about the linker for aarch64, without its name.
print_linker_for_aarch64() {
    sed -n 's/^linker for aarch64: //p' release/BUILD
}

# Writes BUILD: the version, the hashes of the sources and the versions of the tools, each as a line `NAME: VALUE`.
write_build_file() {
    {
        echo "version: $(sed -n 's/^const VERSION: &str = "\(.*\)";/\1/p' crates/hidlog/src/cli.rt)"
        echo "kit: $(rt version)"
        echo "sources: $(packages/release_sources.sh --hash)"
        echo "processor: x86-64-v2"
        echo "object: $(print_object_hash)"
        echo "module: $(sha256sum <"$work/module.wasm" | cut -c1-64)"
        echo "lowered by: $(print_wasm_opt_version)"
        echo "linker: $(describe_linker gcc)"
        echo "linker for aarch64: $(if [ "$mode" = "" ]; then describe_linker aarch64-linux-gnu-gcc; else print_linker_for_aarch64; fi)"
    } >"$made/BUILD"
}

# Compares release/ with the files that were built, and fails if one differs. If this machine has another gcc or C
# library than the machine that wrote release/, the linked programs differ: compares the object file of the program for
# x86-64 instead, and does not compare the program for aarch64. If it has another wasm-opt, compares the WebAssembly
# module before wasm-opt. The toolchain may have another name, but must have the same logic (proof rules).
compare_release() {
    local name differ=0
    for name in "${names[@]}"; do
        if cmp -s "release/$name" "$made/$name"; then
            echo "same  release/$name"
        elif [ "$name" = hidlog ] && differs_in_tool linker; then
            echo "same  release/hidlog, by its object file: this machine has another gcc or C library"
        elif [ "$name" = aarch64/hidlog ] && differs_in_tool "linker for aarch64"; then
            echo "skipped  release/aarch64/hidlog: this machine has another gcc or C library"
        elif [ "$name" = hidlog.wasm ] && differs_in_tool "lowered by"; then
            echo "same  release/hidlog.wasm, compared before wasm-opt: this machine has another wasm-opt"
        elif [ "$name" = BUILD ] && differs_only_in_tools; then
            echo "same  release/BUILD, except for the toolchain's name, the linker or wasm-opt"
        else
            echo "DIFFERS  release/$name"
            differ=1
        fi
    done
    (cd release && sha256sum --quiet --check SHA256SUMS) || differ=1
    [ "$differ" = 0 ] || fail "release/ is out of date: run packages/build_release.sh"
}

# Prints a BUILD file without the lines about the linkers and wasm-opt. Reduces the toolchain's version to the hash of
# its logic.
print_without_tools() {
    grep -v '^linker\(:\| for\)\|^lowered by:' "$1" | sed 's/^kit: .* logic /kit: logic /'
}

# Returns whether the two BUILD files are equal except for the linkers, wasm-opt and the toolchain's name. If they are,
# the files that the linkers and wasm-opt read are equal, too, since BUILD has their hashes.
differs_only_in_tools() {
    diff <(print_without_tools release/BUILD) <(print_without_tools "$made/BUILD") >/dev/null
}

# Returns whether the two BUILD files differ in the line about this tool, and otherwise only in lines about tools:
# differs_in_tool TOOL
differs_in_tool() {
    ! diff <(grep "^$1:" release/BUILD) <(grep "^$1:" "$made/BUILD") >/dev/null && differs_only_in_tools
}

# Writes the file for pkg-config that describes a shared library: write_pkg_config NAME [CFLAG]
write_pkg_config() {
    {
        echo "prefix=\${pcfiledir}"
        echo "Name: $1"
        echo "Description: a FIDO2 security key as software, for tests"
        echo "Version: $(sed -n 's/^version: //p' "$made/BUILD")"
        echo "Cflags: -I\${prefix}${2:+ $2}"
        echo "Libs: -L\${prefix} -l:lib$1.so.1"
    } >"$made/$1.pc"
}

# Builds the files that must be proved again, which takes long. `--check` without `all` does not call it.
build_slow_files() {
    build_program_for_aarch64
    build_large_library
}

names=(BUILD hidlog hidlog.h hidlog_recording.h hidlog_standard.h hidlog.pc hidlog-256.pc hidlog.wasm libhidlog.a
    libhidlog.so.1 aarch64/libhidlog.a)
slow=(aarch64/hidlog libhidlog-256.a libhidlog-256.so.1)
case "$*" in
"" | --check | "--check all") ;;
*) fail "usage: packages/build_release.sh [--check [all]]" ;;
esac
mode=${1-}
build_program
build_library crates/hidlog_c x86_64-unknown-linux-gnu "$made/libhidlog.a"
build_library crates/hidlog_c aarch64-unknown-linux-gnu "$made/aarch64/libhidlog.a"
build_shared libhidlog
build_module
write_build_file
write_pkg_config hidlog
write_pkg_config hidlog-256 -DHIDLOG_CAPACITY=256
cp crates/hidlog_c/hidlog.h crates/hidlog_c/hidlog_recording.h crates/hidlog_c/hidlog_standard.h "$made"
if [ "$*" != --check ]; then
    build_slow_files
    names+=("${slow[@]}")
fi
if [ "$mode" = --check ]; then
    compare_release
    [ $# = 2 ] || echo "not built again, but the hashes match: ${slow[*]}"
else
    (cd "$made" && sha256sum "${names[@]}" >SHA256SUMS)
    cp -a "$made/." release/
    cat release/BUILD release/SHA256SUMS
fi
