#!/bin/sh
# Prints the paths of the files and folders from which release/ is built, one per line: crates.txt, HANDLES, the C
# headers, and the folders src, specs and proofs of the crates hidlog_cli and hidlog_c, and of each crate on which they
# depend.
#
#     packages/release_sources.sh            prints the paths
#     packages/release_sources.sh --hash     prints one hash of the contents of all these files
set -eu
cd "$(dirname "$0")/.."

list_sources() {
    echo crates.txt
    echo HANDLES
    echo crates/hidlog_c/hidlog.h
    echo crates/hidlog_c/hidlog_recording.h
    echo crates/hidlog_c/hidlog_standard.h
    awk '
        /^#/ || !NF { next }
        {
            split($0, halves, ":")
            split(halves[1], words, " ")
            uses[words[1]] = halves[2]
        }
        function visit(name, libraries, count, i) {
            if (!(name in uses) || name in seen)
                return
            seen[name] = 1
            count = split(uses[name], libraries, " ")
            for (i = 1; i <= count; i++)
                visit(libraries[i])
            print "crates/" name
        }
        END {
            visit("hidlog_cli")
            visit("hidlog_c")
        }' crates.txt | while read -r crate; do
        for part in src specs proofs; do
            [ ! -d "$crate/$part" ] || echo "$crate/$part"
        done
    done
}

if [ "${1-}" = --hash ]; then
    list_sources | xargs -I{} find {} -type f | LC_ALL=C sort | xargs sha256sum | sha256sum | cut -c1-64
else
    list_sources
fi
