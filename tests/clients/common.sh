# shellcheck shell=bash
# Functions that the scripts in this folder share. Source this file. The environment variable HIDLOG_LIBRARY is the
# folder with hidlog.h, libhidlog.a and libhidlog.so.1 [default: release/].
top=$(cd "$(dirname "${BASH_SOURCE[0]}")/../.." && pwd)
library=$(cd "${HIDLOG_LIBRARY:-$top/release}" && pwd)
name=tests/clients/$(basename "$0" .sh)
export LC_ALL=C

# Prints why nothing was run, and exits with 3: exit_skipped REASON
exit_skipped() {
    echo "$name: $1; nothing was run" >&2
    exit 3
}

# Exits with 3 if a command is missing, and names its Debian package: require_commands COMMAND PACKAGE ..
require_commands() {
    while [ $# -gt 0 ]; do
        command -v "$1" >/dev/null || exit_skipped "$1 is missing (apt-get install $2)"
        shift 2
    done
}

# Exits with 3 if a C header is missing, and names its Debian package: require_header HEADER PACKAGE
require_header() {
    echo "#include <$1>" | gcc -E - >/dev/null 2>&1 || exit_skipped "the header $1 is missing (apt-get install $2)"
}

# Exits with 3 unless libhidlog.a exists and has the functions of an in-memory key.
require_in_memory_key() {
    # Without -q, grep reads all its input: with -q it would exit at the first match, and nm would fail with SIGPIPE.
    nm "$library/libhidlog.a" 2>/dev/null | grep ' T hidlog_key_init$' >/dev/null ||
        exit_skipped "the library in ${HIDLOG_LIBRARY:-release/} is missing or too old: it has no hidlog_key_init"
}

# Compiles C files as the comments in examples/c describe, with warnings as errors: compile OPTION .. FILE ..
compile() {
    gcc -std=c11 -O2 -Wall -Wextra -Werror -I "$library" -I "$top/examples/c" "$@"
}

# Prints the version of an installed Debian package, or "?" if it is not installed: print_version PACKAGE
print_version() {
    dpkg-query -W -f '${Version}' "$1" 2>/dev/null || echo "?"
}

fail() {
    echo "$name: $1" >&2
    exit 1
}
