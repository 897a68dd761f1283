#!/usr/bin/env bash
# Tests what runs outside of this repository, in Docker and on GitHub, without either. For the Dockerfile, copies the
# image's files to a folder, and checks a log there with chroot. For the GitHub action, runs the commands of action.yml
# in a new environment, with a failing test whose recording must be saved. Also checks that action.yml and the workflows
# use no other GitHub action. Exits with 3 if nothing could be run.
set -euo pipefail
top=$(cd "$(dirname "${BASH_SOURCE[0]}")/.." && pwd)
work=$(mktemp -d)
trap 'rm -rf "$work"' EXIT
log=$top/examples/sign_in.log
ran=0

fail() {
    echo "tests/outside.sh: $*"
    exit 1
}

# Copies the files of the Docker image to a folder, as the COPY lines of the Dockerfile say.
make_image() {
    local word words target
    mkdir "$work/image"
    while read -r word words; do
        [ "$word" = COPY ] || continue
        target=${words##* }
        for word in ${words% *}; do
            grep -qx "!$word" "$top/.dockerignore" || fail ".dockerignore hides $word"
            case $target in
            */) install -D "$top/$word" "$work/image$target${word##*/}" ;;
            *) install -D "$top/$word" "$work/image$target" ;;
            esac
        done
    done <"$top/Dockerfile"
}

make_image
entry=$(sed -n 's/^ENTRYPOINT \["\(.*\)"\]/\1/p' "$top/Dockerfile")
user=$(sed -n 's/^USER //p' "$top/Dockerfile")
chmod 755 "$work" "$work/image"
if [ "$(id -u)" = 0 ]; then
    output=$(chroot --userspec="$user" "$work/image" "$entry" check <"$log")
    [ "$output" = "same 14 inputs 22 packets" ] || fail "unexpected output of the image: $output"
    [ "$(find "$work/image" -type f | wc -l)" = 4 ] || fail "the image must have 4 files, not $(find "$work/image" -type f | wc -l)"
    echo "tests/outside.sh: the image of 4 files plays a log, as the user $user"
    ran=1
fi

! grep -E '^ *(- )?uses: ' "$top/action.yml" "$top"/.github/workflows/*.yml || fail "action.yml or a workflow uses another action"
# Check that only workflows whose jobs run in a Debian container use apt-get.
! grep -q 'apt-get' "$top/action.yml" || fail "action.yml uses apt-get, but runs on any system"
for workflow in "$top"/.github/workflows/*.yml; do
    ! grep -q 'apt-get' "$workflow" || grep -q 'container: debian:' "$workflow" || fail "$workflow uses apt-get outside a Debian container"
done

# Runs the action's last step, which writes the recordings to a summary of at most MAX_BYTES: write_summary MAX_BYTES
write_summary() {
    printf 'a snapshot' >"$HIDLOG_LOG_DIR/x.snapshot"
    : >"$work/summary"
    print_step 'step["name"] == "Write the session logs to the summary"' >"$work/keep.sh"
    LOG_DIR=$HIDLOG_LOG_DIR MAX_BYTES=$1 GITHUB_STEP_SUMMARY=$work/summary bash -e "$work/keep.sh" ||
        fail "the action's step that writes the summary failed"
}

# Prints the shell commands of the first step in action.yml that meets a condition in Python: print_step CONDITION
print_step() {
    /usr/bin/python3 -c "import sys, yaml
steps = yaml.safe_load(open(sys.argv[1]))['runs']['steps']
print(next(step['run'] for step in steps if $1))" "$top/action.yml"
}

# Runs the action's step that installs packages into a virtual environment. pip finds only the wheels that were built
# here: install_by_action VENV [REQUIREMENTS]
install_by_action() {
    rm -rf "$work/temp"
    mkdir -p "$work/temp"
    rm -f "$work/path" "$work/env" "$work/output"
    RUNNER_TEMP=$work/temp GITHUB_PATH=$work/path GITHUB_ENV=$work/env GITHUB_OUTPUT=$work/output ACTION=$top \
        PYTHON=$work/$1/bin/python REQUIREMENTS=${2-} PYTHONDONTWRITEBYTECODE=1 \
        PIP_NO_DEPS=1 PIP_NO_INDEX=1 PIP_FIND_LINKS=$work/dist bash -e "$work/install.sh" >"$work/output" 2>&1
}

# Checks that the action installs packages only from its own sources, or from a requirements file that has their hashes.
check_hashes() {
    /usr/bin/python3 -m venv --without-pip "$work/bare" || fail "cannot create a virtual environment"
    print_step 'step.get("id") == "install"' >"$work/install.sh"
    ! install_by_action bare || fail "the action installs without cryptography"
    grep -q '^::error::the Python package cryptography is missing' "$work/output" || fail "unexpected message: $(cat "$work/output")"
    # Use a requirements file that names the package hidlog itself: without a hash, with a wrong one, and with the right
    # one.
    local wheel=("$work"/dist/*x86_64.whl) version
    version=$(sed -n 's/^version: //p' "$top/release/BUILD")
    echo "hidlog==$version" >"$work/requirements.txt"
    ! install_by_action venv "$work/requirements.txt" || fail "the action installs a package without a hash"
    grep -q 'Hashes are required' "$work/output" || fail "unexpected message of the action: $(cat "$work/output")"
    [ -z "$(find "$work/temp" -name '*.whl')" ] || fail "the action continued after pip had rejected the requirements"
    echo "hidlog==$version --hash=sha256:$(printf %064d 0)" >"$work/requirements.txt"
    ! install_by_action venv "$work/requirements.txt" || fail "the action installs a package with another hash"
    echo "hidlog==$version --hash=sha256:$(sha256sum "${wheel[0]}" | cut -c1-64)" >"$work/requirements.txt"
    install_by_action venv "$work/requirements.txt" || fail "the action refuses the right hash: $(cat "$work/output")"
    [ "$(grep -c 'pip' "$work/install.sh")" = "$(grep -cE -- '--require-hashes|--no-index|^ *pip=' "$work/install.sh")" ] ||
        fail "the action calls pip without --require-hashes or --no-index"
    echo "tests/outside.sh: the action fetches nothing without a hash"
}

if /usr/bin/python3 -c 'import yaml, hatchling, venv, pytest, cryptography' 2>/dev/null; then
    /usr/bin/python3 -m venv --system-site-packages "$work/venv"
    "$top/bindings/python/build.sh" "$work/dist" >/dev/null
    check_hashes
    install_by_action venv || fail "the action does not install: $(cat "$work/output")"
    /usr/bin/python3 "$top/tests/wheels_same.py" "$work"/temp/hidlog/wheel/*.whl "$work"/dist/*x86_64.whl
    grep -q '^hidlog [0-9]' "$work/output" || fail "unexpected message of the action: $(cat "$work/output")"
    PATH=$(cat "$work/path"):$PATH
    [ "$(hidlog check "$log")" = "same 14 inputs 22 packets" ] || fail "the action's program is not on PATH"
    # shellcheck disable=SC1091 # it is generated above
    set -a && source "$work/env" && set +a
    mkdir "$work/suite"
    cat >"$work/suite/test_it.py" <<'END'
def test_that_fails(security_key):
    user = {"id": "YW5u", "name": "ann", "displayName": "Ann"}
    options = {"rp": {"name": "Example"}, "user": user, "challenge": "AAECAwQFBgc", "pubKeyCredParams": []}
    assert not security_key.browser("http://localhost:5000").create(options)
END
    (cd "$work/suite" && "$work/venv/bin/python" -m pytest -q -p no:cacheprovider \
        --security-key-log "$HIDLOG_LOG_DIR" .) >"$work/output" && fail "the test should have failed"
    kept=("$HIDLOG_LOG_DIR"/*.log)
    [ -s "${kept[0]}" ] || fail "no recording was kept: $(cat "$work/output")"
    [[ $(hidlog check "${kept[0]}") = same\ * ]] || fail "the recording differs"
    write_summary 900000
    awk '/^```/ { n++; next } n == 1' "$work/summary" >"$work/kept.log"
    awk '/^```/ { n++; next } n == 3' "$work/summary" | base64 -d | cmp - "$HIDLOG_LOG_DIR/x.snapshot" ||
        fail "the snapshot in the summary differs"
    cmp "$work/kept.log" "${kept[0]}" || fail "the recording in the summary differs: $(cat "$work/summary")"
    write_summary 10
    grep -q "^${kept[0]##*/} is left out: [0-9]* bytes" "$work/summary" || fail "a recording that is left out is not listed"
    echo "tests/outside.sh: the action installs, and a failed test's recording is kept"
    ran=1
fi
[ "$ran" = 1 ] || { echo "tests/outside.sh: root, or Python's yaml, hatchling, venv, pytest and cryptography (tests/run --install) are required; nothing was run" >&2; exit 3; }
