#!/usr/bin/env bash
# Tests the Python package in other environments than this system's: tests/python/environments.sh [CACHE [PART ..]]
# [default: all parts]. "Ceremony tests" are those that register and sign in.
#
#     fido2          ceremony tests and examples/python, with warnings as errors: without python-fido2, and with its
#                    versions 0.9, 1.2 and 2.2 (of Debian's bookworm, trixie and sid)
#     pythons        ceremony tests with each installed Python from 3.9 to 3.13: pip installs the wheel into an empty
#                    virtual environment
#     musl           a C program that musl's loader runs replays a sign-in with the wheel's library
#     aarch64        pip, run by qemu, installs the wheel for aarch64, and a script registers and signs in
#
# Downloads missing packages from Debian to CACHE and unpacks them there, without installing them; with
# HIDLOG_OFFLINE=1, downloads nothing. A part that needs something that is missing is skipped, and the reason is
# printed. The last line of the output is `N passed, N failed, N skipped`. HIDLOG_PYTHONS is a list of Python
# interpreters, separated by colons [default: those in /usr/bin and of pyenv].
set -uo pipefail
here=$(cd "$(dirname "${BASH_SOURCE[0]}")" && pwd)
top=$(cd "$here/../.." && pwd)
work=$(mktemp -d)
trap 'rm -rf "$work"' EXIT
cache=${1:-$work/cache}
mkdir -p "$cache"
cache=$(cd "$cache" && pwd)
system=/usr/bin/python3
debian=/usr/lib/python3/dist-packages
export PYTHONDONTWRITEBYTECODE=1 HIDLOG_EXAMPLES=$top/examples
unset PYTHONPATH HIDLOG_PROGRAM HIDLOG_LIBRARY
passed=0
failed=0
skipped=0
tried=

report_ok() {
    echo "ok       $*"
    passed=$((passed + 1))
}

report_skipped() {
    echo "skipped  $*"
    skipped=$((skipped + 1))
}

# Runs a command as a test case, counts the result, and prints the end of the command's output if it fails: run_case
# TITLE COMMAND ..
run_case() {
    if "${@:2}" >"$work/output" 2>&1 </dev/null; then
        report_ok "$1: $(tail -1 "$work/output")"
    else
        echo "FAILED   $1"
        sed 's/^/    /' "$work/output" | tail -30
        failed=$((failed + 1))
    fi
}

# Runs apt-get for another Debian suite or processor than this system's. It uses only directories in CACHE: run_apt_get
# SUITE PROCESSOR ARG ..
run_apt_get() {
    local folder=$cache/apt-$1-$2
    mkdir -p "$folder/lists/partial" "$folder/archives/partial"
    printf '%s\n' "deb [signed-by=/usr/share/keyrings/debian-archive-keyring.gpg] http://deb.debian.org/debian $1 main" \
        "deb-src [signed-by=/usr/share/keyrings/debian-archive-keyring.gpg] http://deb.debian.org/debian $1 main" \
        >"$folder/sources.list"
    apt-get -qq -o "Dir::Etc::sourcelist=$folder/sources.list" -o Dir::Etc::sourceparts=/dev/null \
        -o "Dir::State::lists=$folder/lists" -o "Dir::Cache=$folder" -o "APT::Architecture=$2" \
        -o "APT::Architectures=$2" -o APT::Sandbox::User=root "${@:3}" >/dev/null 2>&1
}

# Downloads Debian packages and unpacks them into the directory DIR in CACHE, unless it exists: unpack_packages DIR
# SUITE PROCESSOR PACKAGE ..
unpack_packages() {
    local to=$cache/$1 name
    [ ! -e "$to/.complete" ] || return 0
    [ -z "${HIDLOG_OFFLINE-}" ] || return 1
    mkdir -p "$to/.debs"
    (cd "$to/.debs" && run_apt_get "$2" "$3" update && run_apt_get "$2" "$3" download "${@:4}") || return 1
    for name in "$to"/.debs/*.deb; do
        dpkg-deb -x "$name" "$to" || return 1
    done
    touch "$to/.complete"
}

# Makes links in a directory to those modules of Debian's Python packages that work with any Python version:
# link_packages DIR
link_packages() {
    local name
    mkdir -p "$1"
    for name in cryptography cffi pytest _pytest py py.py pluggy iniconfig packaging attr attrs exceptiongroup tomli pycparser; do
        [ ! -e "$debian/$name" ] || ln -sfn "$debian/$name" "$1/$name"
    done
}

# Prints the path of the wheel of pip for an interpreter: the one in its module ensurepip, or Debian's: find_pip_wheel
# INTERPRETER
find_pip_wheel() {
    "$1" -c 'import ensurepip, glob, os
own = os.path.join(os.path.dirname(ensurepip.__file__), "_bundled", "pip-*.whl")
print((glob.glob(own) + glob.glob("/usr/share/python-wheels/pip-*.whl"))[0])'
}

# Creates an empty virtual environment with the wheel: create_environment DIR INTERPRETER. The interpreter runs pip from
# its wheel, because installing pip into each environment would take longer than everything else.
create_environment() {
    local pip
    pip=$(find_pip_wheel "$2") && "$2" -m venv --without-pip "$1" &&
        PYTHONPATH=$pip "$1/bin/python" -m pip install --quiet --no-index --no-deps "$work"/dist/*x86_64.whl
}

# Runs the ceremony tests, except those that need Chromium: run_ceremony_tests INTERPRETER ARG ..
run_ceremony_tests() {
    (cd "$work/tests" && "$@" -m pytest -q -p no:cacheprovider -k "not chromium and not page" \
        test_browser.py test_browser_cases.py test_threads.py test_invalid_arguments.py test_readers.py)
}

# Runs the ceremony tests. If DIR is not "", also runs the examples and the comparison with python-fido2's client, with
# the python-fido2 in DIR: test_with_fido2_version TITLE DIR
test_with_fido2_version() {
    local version=$1 path=$2 python=$work/system/bin/python
    export PYTHONPATH=$path
    run_case "ceremonies with $version" run_ceremony_tests "$python" -W error
    if [ -n "$path" ]; then
        run_case "$version compared" bash -c 'cd "$1" && "$2" -m pytest -q -p no:cacheprovider test_fido2.py' _ "$work/tests" "$python"
        run_case "examples with $version" "$python" -W error -m pytest -q -W error -p no:cacheprovider "$top/examples/python"
    fi
    unset PYTHONPATH
}

test_fido2() {
    create_environment "$work/system" "$system" || return
    link_packages "$work/packages"
    ln -sfn "$debian"/_cffi_backend.*.so "$work/packages/"
    echo "$work/packages" >"$(echo "$work"/system/lib/python3*/site-packages)/packages.pth"
    test_with_fido2_version "no python-fido2" ""
    tried=yes
    if [ -d "$debian/fido2" ]; then
        mkdir -p "$work/installed"
        ln -sfn "$debian/fido2" "$debian/six.py" "$work/installed/"
        test_with_fido2_version "the python-fido2 that is installed" "$work/installed"
    fi
    local suite path
    for suite in trixie sid; do
        if unpack_packages "fido2-$suite" "$suite" amd64 python3-fido2 publicsuffix; then
            path=$cache/fido2-$suite/usr/lib/python3/dist-packages
            test_with_fido2_version "python-fido2 $(sed -n 's/^Version: //p' "$path"/fido2-*/METADATA)" "$path"
        else
            report_skipped "python-fido2 of $suite: Debian's mirror is unreachable, or HIDLOG_OFFLINE is set"
        fi
    done
}

list_interpreters() {
    if [ -n "${HIDLOG_PYTHONS-}" ]; then
        tr ':' '\n' <<<"$HIDLOG_PYTHONS"
        return
    fi
    local minor python versions=${PYENV_ROOT:-$HOME/.pyenv}/versions
    for minor in 9 10 11 12 13; do
        for python in "/usr/bin/python3.$minor" "$versions/3.$minor".*/bin/python3; do
            [ ! -x "$python" ] || echo "$python"
        done
    done
}

# Puts the extension module _cffi_backend, which the package cryptography needs, for an interpreter into a directory:
# Debian's module, or one that is compiled from Debian's sources. provide_cffi INTERPRETER DIR
provide_cffi() {
    local source=$cache/cffi-source name
    name=_cffi_backend$("$1" -c 'import sysconfig; print(sysconfig.get_config_var("EXT_SUFFIX"))')
    if [ -e "$debian/$name" ]; then
        ln -sfn "$debian/$name" "$2/"
        return
    fi
    if ! compgen -G "$source/cffi-*/c/_cffi_backend.c" >/dev/null; then
        [ -z "${HIDLOG_OFFLINE-}" ] || return 1
        mkdir -p "$source"
        (cd "$source" && run_apt_get bookworm amd64 update && run_apt_get bookworm amd64 source --tar-only python-cffi &&
            tar -xf python-cffi_*.orig.tar.gz) || return 1
    fi
    # Give a function that the sources use its new name, which it has since Python 3.13.
    gcc '-D_PyErr_WriteUnraisableMsg(text, object)=PyErr_WriteUnraisable(object)' -shared -fPIC -O1 -w "-I$("$1" -c 'import sysconfig; print(sysconfig.get_paths()["include"])')" -DUSE__THREAD \
        -DHAVE_SYNC_SYNCHRONIZE -o "$2/$name" \
        "$source"/cffi-*/c/_cffi_backend.c -lffi
}

test_pythons() {
    local python venv
    while read -r python; do
        venv=$work/$("$python" -c 'import platform; print(platform.python_version())')
        [ ! -e "$venv" ] || continue
        run_case "$(basename "$venv") installs the wheel" create_environment "$venv" "$python"
        run_case "$(basename "$venv") imports it and checks a log" "$venv/bin/hidlog" check "$top/examples/sign_in.log"
        run_case "$(basename "$venv") checks a log by the library" "$venv/bin/python" -c \
            "import hidlog, sys; print(hidlog.check(open(sys.argv[1], 'rb').read()).raise_for_fault().text.decode())" \
            "$top/examples/sign_in.log"
        if [ -n "${tried-}" ] && [ "$("$system" -c 'import platform; print(platform.python_version())')" = "$(basename "$venv")" ]; then
            continue # test_fido2 has run these tests with this interpreter
        fi
        link_packages "$venv/packages"
        if provide_cffi "$venv/bin/python" "$venv/packages" >"$work/output" 2>&1; then
            echo "$venv/packages" >"$(echo "$venv"/lib/python3*/site-packages)/packages.pth"
            run_case "$(basename "$venv") signs in: the tests of ceremonies" run_ceremony_tests "$venv/bin/python"
        else
            report_skipped "$(basename "$venv") signs in: Debian has no cffi for it, and its source wasn't compiled"
        fi
    done < <(list_interpreters)
}

test_musl() {
    if ! command -v musl-gcc >/dev/null; then
        report_skipped "musl: musl-gcc is missing (apt-get install musl-tools)"
        return
    fi
    mkdir -p "$work/musl"
    (cd "$work/musl" && unzip -q -o "$work"/dist/*x86_64.whl 'hidlog/*')
    run_case "musl links a client with the wheel's library" musl-gcc -O1 -I "$top/release" -o "$work/musl/client" \
        "$top/tests/c/key.c" "$work/musl/hidlog/libhidlog.so.1" "-Wl,-rpath,$work/musl/hidlog"
    run_case "the client runs with musl's loader: $(readelf -p .interp "$work/musl/client" | grep -o '/lib.*')" \
        bash -c '"$1" <"$2" | cmp - "$2" && echo "the replay equals the recording"' _ "$work/musl/client" "$top/examples/sign_in.log"
}

# Prints a Python script that registers and signs in with the package alone. The recording must match the packets that
# the key sends.
print_sign_in() {
    cat <<'PYTHON'
import platform

import hidlog

OPTIONS = {
    "challenge": "AAECAwQFBgcICQoLDA0ODw",
    "rp": {"name": "Example"},
    "user": {"id": "AQ", "name": "ann", "displayName": "Ann"},
    "pubKeyCredParams": [{"type": "public-key", "alg": -7}],
    "authenticatorSelection": {"residentKey": "required", "userVerification": "required"},
}

with hidlog.SecurityKey(verification="verified") as key:
    browser = key.browser("http://localhost:5000")
    made = browser.create(OPTIONS)
    found = browser.get({"challenge": OPTIONS["challenge"], "userVerification": "required"})
    assert found["id"] == made["id"]
summary = hidlog.check(key.log).raise_for_fault().text.decode().strip()
print(platform.machine(), platform.python_version(), summary)
PYTHON
}

test_aarch64() {
    local root=$cache/aarch64 wheels
    wheels=$(echo /usr/share/python-wheels/pip-*.whl)
    if ! command -v qemu-aarch64-static >/dev/null || [ ! -e "$wheels" ]; then
        report_skipped "aarch64: qemu-user-static or python3-venv is missing"
    elif ! unpack_packages aarch64 bookworm arm64 libc6 libgcc-s1 libpython3.11-minimal libpython3.11-stdlib python3.11-minimal \
        python3.11 libssl3 zlib1g libexpat1 libffi8 liblzma5 libbz2-1.0 libuuid1 libsqlite3-0 libcrypt1 \
        python3-cryptography python3-cffi-backend; then
        report_skipped "aarch64: Debian's mirror is unreachable, or HIDLOG_OFFLINE is set"
    else
        local python=(qemu-aarch64-static -L "$root" "$root/usr/bin/python3.11") to=$work/aarch64
        run_case "aarch64 installs its wheel" env "PYTHONPATH=$wheels" "${python[@]}" -m pip install --quiet --no-index \
            --no-deps --root-user-action=ignore --target "$to" "$work"/dist/*aarch64.whl
        print_sign_in >"$work/sign_in.py"
        run_case "aarch64 signs in" env "PYTHONPATH=$to:$root$debian" "${python[@]}" "$work/sign_in.py"
        run_case "aarch64 has the program: $(qemu-aarch64-static "$to/hidlog/hidlog" --version)" \
            qemu-aarch64-static "$to/hidlog/hidlog" check "$top/examples/sign_in.log"
    fi
}

"$system" -c 'import cryptography, hatchling, pytest, venv' 2>/dev/null ||
    { echo "tests/python/environments.sh: hatchling, cryptography, pytest or venv is missing (tests/run --install); nothing was run" >&2; exit 3; }
"$top/bindings/python/build.sh" "$work/dist" >/dev/null || exit 1
mkdir -p "$work/tests"
cp "$here"/*.py "$here"/*.json "$work/tests"
export HIDLOG_DIST=$work/dist
parts=("${@:2}")
[ ${#parts[@]} -gt 0 ] || parts=(fido2 pythons musl aarch64)
for part in "${parts[@]}"; do
    "test_$part"
done
echo "$passed passed, $failed failed, $skipped skipped"
[ "$failed" = 0 ]
