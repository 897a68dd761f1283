#!/usr/bin/env bash
# Tests OpenSSH with the security key provider of bridges/ssh: builds libhidlog_sk.so, generates keys with ssh-keygen,
# signs in to an sshd on the loopback address, downloads resident keys, and signs a file. Exits with 3 if a dependency
# is missing.
# shellcheck disable=SC1091,SC2154 # top, name and library are set by common.sh
set -euo pipefail
source "$(dirname "${BASH_SOURCE[0]}")/common.sh"
PATH=$PATH:/usr/sbin:/sbin
require_commands gcc "gcc libc6-dev" nm binutils ssh openssh-client ssh-keygen openssh-client sshd openssh-server
[ -x /usr/lib/openssh/ssh-sk-helper ] || exit_skipped "ssh-sk-helper is missing (apt-get install openssh-client)"
require_header fido.h libfido2-dev
require_header openssl/evp.h libssl-dev
require_in_memory_key
work=$(mktemp -d)
# OpenSSH needs the user's name. If the user has no entry in /etc/passwd, as in a container, nss_wrapper provides one.
if ! id -un >/dev/null 2>&1; then
    wrapper=$(ls /usr/lib/*/libnss_wrapper.so 2>/dev/null) ||
        exit_skipped "libnss-wrapper is missing, for a user without a name (apt-get install libnss-wrapper)"
    export LD_PRELOAD=$wrapper NSS_WRAPPER_PASSWD=$work/passwd NSS_WRAPPER_GROUP=/etc/group
    (cat /etc/passwd && echo "tester:x:$(id -u):$(id -g)::$work:/bin/bash") >"$NSS_WRAPPER_PASSWD"
fi
server=
made_run=

# Stops sshd, and removes the files that the test created.
clean_up() {
    if [ -n "$server" ]; then
        kill "$server" 2>/dev/null || true
        wait "$server" 2>/dev/null || true
    fi
    if [ -n "$made_run" ]; then
        rmdir /run/sshd 2>/dev/null || true
    fi
    rm -rf "$work"
}
trap clean_up EXIT
cd "$work"
echo "$name: OpenSSH client $(print_version openssh-client), server $(print_version openssh-server), libfido2 $(print_version libfido2-dev)"
parts=("$top"/bridges/ssh/{hidlog_sk,state}.c
    "$top"/examples/c/{fido_device,virtual_key,private_file,software_keys,snapshot}.c)
compile -shared -fPIC -fvisibility=hidden -o libhidlog_sk.so "${parts[@]}" "$library/libhidlog.a" \
    -Wl,--exclude-libs,ALL -lfido2 -lcrypto
export SSH_SK_PROVIDER=$work/libhidlog_sk.so HIDLOG_SK_STATE=$work/key.state
unset SSH_AUTH_SOCK SSH_ASKPASS DISPLAY

# Runs a command that must succeed, and prints the last line of its output: expect_success CASE COMMAND ..
expect_success() {
    "${@:2}" >output 2>&1 </dev/null || { cat output && fail "$1: failed with status $?"; }
    echo "$name: $1: $(tail -1 output)"
}

# Runs a command that must fail and print a message: expect_failure CASE MESSAGE COMMAND ..
expect_failure() {
    if "${@:3}" >output 2>&1 </dev/null; then
        cat output
        fail "$1: the command succeeded, but must fail"
    fi
    grep -q "$2" output || { cat output && fail "$1: expected the message: $2"; }
    echo "$name: $1: $(grep "$2" output | tail -1)"
}

# Generates a key pair with ssh-keygen, and prints its fingerprint: generate_key FILE OPTION ..
generate_key() {
    ssh-keygen -q -N '' -C hidlog -f "$1" "${@:2}" && ssh-keygen -lf "$1.pub"
}

# Signs in to sshd with the key in a file: sign_in FILE
sign_in() {
    ssh -F none -i "$1" -p "$port" -o IdentitiesOnly=yes -o BatchMode=yes -o PreferredAuthentications=publickey \
        -o UserKnownHostsFile="$work/known" -o StrictHostKeyChecking=yes -o ConnectTimeout=600 \
        -o "SecurityKeyProvider=$SSH_SK_PROVIDER" "$(id -un)@127.0.0.1" whatever
}

# Starts sshd on a random port, and tries up to five ports.
start_server() {
    local tries=0
    if [ "$(id -u)" = 0 ] && [ ! -d /run/sshd ]; then
        mkdir -m 755 /run/sshd
        made_run=yes
    fi
    ssh-keygen -q -t ed25519 -N '' -f host
    while [ $((tries += 1)) -le 5 ]; do
        port=$((20000 + RANDOM))
        printf '%s\n' "ListenAddress 127.0.0.1:$port" "HostKey $work/host" "AuthorizedKeysFile $work/authorized" \
            "PidFile none" "UsePAM no" "StrictModes no" "PasswordAuthentication no" "PermitRootLogin yes" \
            "KbdInteractiveAuthentication no" "LoginGraceTime 0" "ForceCommand echo signed in" >sshd_config
        "$(command -v sshd)" -D -e -f sshd_config 2>server.log &
        server=$!
        # Wait until sshd listens, or exits because the port is in use. The limit of ten minutes is for an sshd that
        # hangs.
        for _ in $(seq 6000); do
            if grep -qs "Server listening" server.log; then
                echo "[127.0.0.1]:$port $(cut -d' ' -f1,2 host.pub)" >known
                return
            fi
            kill -0 "$server" 2>/dev/null || break
            sleep 0.1
        done
    done
    cat server.log
    fail "sshd does not start"
}

expect_success "ssh-keygen -t ecdsa-sk" generate_key first -t ecdsa-sk
expect_success "ssh-keygen -t ecdsa-sk -O resident" generate_key resident -t ecdsa-sk -O resident
expect_success "ssh-keygen -t ecdsa-sk -O no-touch-required" generate_key untouched -t ecdsa-sk -O no-touch-required
expect_failure "a second resident key of the user, not overwritten" "already exists" \
    generate_key second -t ecdsa-sk -O resident
expect_failure "ssh-keygen -t ed25519-sk" "not supported" generate_key other -t ed25519-sk
expect_failure "ssh-keygen -O verify-required" "not supported" generate_key other -t ecdsa-sk -O verify-required

start_server
cat first.pub >authorized
echo "no-touch-required $(cat untouched.pub)" >>authorized
expect_success "ssh signs in" sign_in first
expect_success "ssh signs in again" sign_in first
expect_success "ssh signs in without a touch" sign_in untouched
expect_failure "ssh, if the user denies" "Permission denied" env HIDLOG_SK_PRESENCE=denied bash -c "$(declare -f sign_in)
    port=$port work=$work; sign_in first"
expect_failure "ssh with a key that the server doesn't know" "Permission denied" sign_in resident
mv key.state elsewhere
expect_failure "ssh with a state that lacks the key" "Permission denied" sign_in first
mv elsewhere key.state
mkdir downloaded && cd downloaded
expect_success "ssh-keygen -K" bash -c "echo | ssh-keygen -q -K -N '' && ls id_*rk.pub"
cd ..
[ "$(cut -d' ' -f2 downloaded/id_ecdsa_sk_rk.pub)" = "$(cut -d' ' -f2 resident.pub)" ] || fail "ssh-keygen -K downloaded another key"
cut -d' ' -f1,2 resident.pub >>authorized
expect_success "ssh signs in with the downloaded key" sign_in downloaded/id_ecdsa_sk_rk
echo "$name: the server: $(grep -c 'Accepted publickey .* ECDSA-SK' server.log) sign-ins by ECDSA-SK"
[ "$(grep -c 'Accepted publickey .* ECDSA-SK' server.log)" = 4 ] || fail "expected 4 sign-ins by ECDSA-SK at the server"

echo "a text" >text
echo "hidlog $(cat first.pub)" >signers
expect_success "ssh-keygen -Y sign" ssh-keygen -Y sign -f first -n file text
verify_signature() {
    echo "$1" | ssh-keygen -Y verify -f signers -I hidlog -n file -s text.sig
}
expect_success "ssh-keygen -Y verify" verify_signature "a text"
expect_failure "ssh-keygen -Y verify of another text" "incorrect signature" verify_signature "another text"
