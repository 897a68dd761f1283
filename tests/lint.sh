#!/usr/bin/env bash
# Checks the names of variables, classes and constants against docs/change/STYLE.md, and runs shellcheck, black,
# mypy --strict and tsc --strict. The variable `untyped` lists Python files whose types are not checked yet. Files may
# be removed from it, but not added.
set -euo pipefail
cd "$(dirname "${BASH_SOURCE[0]}")/.."
# Require these versions: other versions of black format differently, and other versions of mypy report other errors.
for tool in "black 23" "mypy 1.0"; do
    [[ $(${tool% *} --version) = ${tool% *}*\ ${tool#* }.* ]] ||
        { echo "tests/lint.sh: ${tool% *} ${tool#* } (Debian 12's version) is required; nothing was run" >&2 && exit 3; }
done
# Find variables called `it`, exception classes whose name does not end in Error (except those that are not errors), and
# constants whose name has the word MOST.
sources=('*.py' '*.js' '*.mjs' '*.go' '*.rs' '*.c' '*.h' ':!bindings/web/dist' ':!release')
pronoun='\bfor \(?(const )?it (in|of)\b|\blambda it\b|^\s*(const |let )?it :?= |\(it[,)]( =>|\.)|, it\) =>|func \(it\b'
not_errors='Mismatch|CaseSkipped|PresenceScriptExhausted'
named=$(
    git grep -nPI "$pronoun|\bit\.[a-z_]+[(\[,)]|\bit: \*?[A-Za-z_]+[,)]" -- "${sources[@]}" || true
    git grep -nPI "^\s*class (?!\w*(Error|$not_errors)\b)\w+\((\w+\.)?\w*(Error|Exception)\b" -- '*.py' || true
    git grep -nPI 'class (?!\w*Error\b)\w+ extends \w*Error\b' -- '*.js' '*.mjs' ':!bindings/web/dist' || true
    git grep -nPI '\b(_?[A-Z]+_)+MOST\b|\bMOST_[A-Z]' -- "${sources[@]}" || true
)
[ -z "$named" ] || { echo "FAILED: names that docs/change/STYLE.md excludes:"; echo "$named"; exit 1; }
mapfile -t shell < <(git ls-files -z -co --exclude-standard |
    xargs -0 awk 'FNR == 1 { if ($0 ~ /^#!.*[\/ ](ba)?sh$/) print FILENAME; nextfile }')
shellcheck --severity=warning "${shell[@]}"
# Find pipes into head, grep -q and grep -m. These stop reading early, so that the writing command may end with SIGPIPE,
# and with pipefail the whole pipe fails.
early=$(grep -l pipefail "${shell[@]}" | xargs grep -nE '[^|][|] *(head|grep -[a-zA-Z]*[qm])' || true)
[ -z "$early" ] || { echo "FAILED: these commands stop reading a pipe early (use sed -n 1p):"; echo "$early"; exit 1; }
mapfile -t python < <(git ls-files -co --exclude-standard '*.py')
black --quiet --check --line-length 120 "${python[@]}"
untyped='^(bench|examples|bindings/python/src|tests/(failing|fuzz|python|web))/'
mapfile -t typed < <(printf '%s\n' "${python[@]}" | grep -Ev "$untyped")
# Call mypy once per folder, since it rejects two files with the same name, which different folders may have.
printf '%s\n' "${typed[@]}" |
    awk '{ folder = $0; sub("[^/]*$", "", folder); files[folder] = files[folder] " " $0 }
        END { for (folder in files) print files[folder] }' |
    xargs -L 1 -P "$(nproc)" mypy --strict --no-error-summary --ignore-missing-imports \
    --follow-imports=silent --allow-untyped-calls --allow-subclassing-any
# Check these packages as a whole, since their modules import one another.
strict=(mypy --strict --no-error-summary --ignore-missing-imports --allow-untyped-calls --allow-subclassing-any)
"${strict[@]}" bindings/python/src/hidlog
MYPYPATH=bindings/python/src:tests/python "${strict[@]}" tests/python/*.py
if command -v tsc >/dev/null; then
    tsc -p bindings/web/tsconfig.json
else
    echo "tests/lint.sh: tsc is missing; the types of bindings/web/ are not checked (apt-get install node-typescript)" >&2
fi
