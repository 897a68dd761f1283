#!/usr/bin/env bash
# Signs a release with a maintainer's key: packages/sign.sh KEY DIR [SIGNERS]
#
# DIR is the output of packages/build.sh. SHA256SUMS and the provenance each get a signature file, FILE.sig. KEY is an
# OpenSSH private key, possibly on a security key, or a public key whose private key is in ssh-agent. SIGNERS has the
# public keys that may sign [default: packages/signers]. Nothing is signed if a file does not match SHA256SUMS and the
# provenance, or if the packages were built from uncommitted changes. The README explains how to verify a signature.
set -euo pipefail
[ $# = 2 ] || [ $# = 3 ] || { sed -n 's/^# \{0,1\}//; 2,8p' "$0" >&2; exit 2; }
here=$(cd "$(dirname "${BASH_SOURCE[0]}")" && pwd)
key=$(realpath -- "$1")
signers=$(realpath -- "${3:-$here/signers}")
signer=cogtzil
namespace=hidlog-release

fail() {
    echo "sign: $*" >&2
    exit 1
}

# Returns whether FILE.sig is a signature of the file by one of the signers: is_signed FILE
is_signed() {
    ssh-keygen -Y verify -f "$signers" -I "$signer" -n "$namespace" -s "$1.sig" <"$1"
}

# Checks that the packages have the hashes that the provenance lists, and were built from a commit without changes:
# check_provenance PROVENANCE
check_provenance() {
    python3 - "$1" <<'END'
import json, sys
from pathlib import Path

statement = json.loads(Path(sys.argv[1]).read_text(encoding="utf-8"))
materials = statement["predicate"]["buildDefinition"]["resolvedDependencies"]
commits = [material for material in materials if material["name"] == "commit"]
if not commits or commits[0]["annotations"]["changed"]:
    sys.exit("sign: the packages were not built from a commit: commit, and run packages/build.sh again")
named = {subject["name"]: subject["digest"]["sha256"] for subject in statement["subject"]}
lines = (line.split("  ", 1) for line in Path("SHA256SUMS").read_text(encoding="utf-8").splitlines())
summed = {name.removeprefix("./"): digest for digest, name in lines}
packages = {name: digest for name, digest in summed.items() if not name.endswith(".json")}
for name in sorted(named.keys() ^ packages.keys() | {each for each in named if named[each] != packages.get(each)}):
    sys.exit(f"sign: {name} is missing or differs in SHA256SUMS or the provenance")
files = {path.name for path in Path().iterdir()} - {"SHA256SUMS", "SHA256SUMS.sig", f"{sys.argv[1]}.sig"}
for name in sorted(files - summed.keys()):
    sys.exit(f"sign: {name} is not in SHA256SUMS: remove it, or run packages/build.sh again")
END
}

cd "$2" || exit 2
provenance=(hidlog-*.provenance.json)
[ -e SHA256SUMS ] && [ ${#provenance[@]} = 1 ] && [ -e "${provenance[0]}" ] ||
    fail "$2 must have SHA256SUMS and one provenance: use the directory of packages/build.sh"
sha256sum --quiet --strict --check SHA256SUMS || fail "a file does not match SHA256SUMS: run packages/build.sh again"
check_provenance "${provenance[0]}"
# Called on exit: removes the signatures, unless all files have been signed.
remove_partial_signatures() {
    [ -n "${is_done-}" ] || rm -f SHA256SUMS.sig "${provenance[0]}.sig"
}
trap remove_partial_signatures EXIT
for file in SHA256SUMS "${provenance[0]}"; do
    rm -f "$file.sig"
    ssh-keygen -Y sign -q -f "$key" -n "$namespace" "$file" >/dev/null || fail "cannot sign $file with $1"
    is_signed "$file" || fail "$1 is not a key in ${signers##*/}: a maintainer must add its public key first"
done
is_done=yes
