#!/bin/sh
# The init program of the virtual machine that uhid.sh boots: starts the bridge, which plugs the key in, runs the test
# cases, and powers off. For each case, it prints a line for uhid.sh: "@@ ok CASE" or "@@ FAILED CASE".
/bin/busybox --install -s /bin
export PATH=/bin:/usr/bin HOME=/root
mount -t proc proc /proc
mount -t sysfs sys /sys
mount -t devtmpfs dev /dev
cd /root || exit
bridge=
# A pipe for the bridge's standard input. A line with y, which touch_key writes, is a touch of the key.
mkfifo typed
exec 4<>typed

# Prints whether a case succeeded, and the file `out`, its output, if it failed: print_result STATUS CASE
print_result() {
    if [ "$1" = 0 ]; then
        echo "@@ ok $2"
    else
        echo "@@ FAILED $2"
        sed 's/^/    /' out
    fi
}

# Runs a command that must succeed, and prints the result of the case: expect_success CASE COMMAND ..
expect_success() {
    text=$1
    shift
    "$@" >out 2>&1 </dev/null
    print_result "$?" "$text"
}

# Runs a command that must fail and print a message, and prints the result of the case: expect_failure CASE MESSAGE
# COMMAND ..
expect_failure() {
    text=$1
    words=$2
    shift 2
    if "$@" >out 2>&1 </dev/null; then
        print_result 1 "$text"
    else
        grep -q "$words" out
        print_result "$?" "$text: $words"
    fi
}

# Waits at most one minute until a command succeeds.
wait_until() {
    for _ in $(seq 600); do
        "$@" >/dev/null 2>&1 && return
        usleep 100000
    done
    return 1
}

is_key_listed() {
    fido2-token -L >listed && grep -q 'vendor=0x1209, product=0x0001' listed
}

is_unplugged() {
    [ ! -e "$device" ] && [ -z "$(fido2-token -L)" ]
}

# Starts the bridge, which plugs the key in, and waits until libfido2 finds the key: plug_in RECORDING OPTION ..
plug_in() {
    record=$1
    shift
    uhid -r "$record" "$@" key.state 2>bridge.err <&4 &
    bridge=$!
    wait_until is_key_listed
    device=$(sed 's/:.*//' listed)
    [ -c "$device" ] && cat listed
}

# Ends the bridge with a signal, and waits until the key has disappeared: unplug SIGNAL
unplug() {
    kill "-$1" "$bridge"
    wait "$bridge" && wait_until is_unplugged
}

# Prints 32 random bytes in base64, the format in which libfido2's tools read a client data hash or a user handle.
print_random() {
    head -c 32 /dev/urandom | base64
}

# Registers a credential for a user with fido2-cred, and verifies it: register USER OPTION ..
register() {
    name=$1
    shift
    { print_random && echo relying.example && echo "$name" && print_random; } >"$name.in"
    fido2-cred -M "$@" -i "$name.in" "$device" >"$name.cred" && fido2-cred -V -i "$name.cred" >"$name.public" &&
        sed 1d "$name.public" >"$name.pem"
}

# Signs in as a user with fido2-assert, and verifies the assertion: sign_in USER
sign_in() {
    { print_random && echo relying.example && head -1 "$1.public"; } >"$1.asked"
    fido2-assert -G -i "$1.asked" "$device" >"$1.answer" && fido2-assert -V -i "$1.answer" "$1.pem" es256
}

print_counter() {
    echo $((0x$(sed -n 3p "$1.answer" | base64 -d | tail -c 4 | hexdump -ve '1/1 "%02x"')))
}

# Signs in as alice, and returns whether the signature counter has increased by one since her last sign-in.
sign_in_and_check_counter() {
    last=$(print_counter alice) && sign_in alice && [ "$(print_counter alice)" = $((last + 1)) ]
}

verify_other_text() {
    echo another >text && verify_text
}

verify_text() {
    ssh-keygen -Y verify -f signers -I hidlog -n file -s text.sig <text
}

create_ssh_key() {
    ssh-keygen -q -t ecdsa-sk -N '' -C hidlog -f id && echo "hidlog $(cat id.pub)" >signers && echo a text >text
}

# Writes an authfile of pam-u2f for root, and a PAM service that uses the authfile. The authfile has the credential ID
# of one user's credential and the public key of another's: write_pam_files USER_OF_ID USER_OF_PUBLIC_KEY
write_pam_files() {
    printf 'root:%s,%s,es256,+presence\n' "$(head -1 "$1.public")" \
        "$(grep -v -- ---- "$2.pem" | base64 -d | tail -c 64 | base64 -w 0)" >authfile
    printf 'auth required pam_u2f.so authfile=/root/authfile origin=relying.example appid=relying.example\n' \
        >/etc/pam.d/hidlog
}

# Returns whether the key waits for a touch: whether the recording second.log ends with that need.
is_waiting_for_touch() {
    [ "$(tail -1 second.log)" = "# need presence" ]
}

# Starts a sign-in as alice in the background, and waits until the key waits for a touch.
begin_sign_in() {
    sign_in alice >first.out 2>&1 &
    first=$!
    wait_until is_waiting_for_touch
}

touch_key() {
    echo y >&4
}

# Runs a command that needs a touch, and touches the key when the key waits for it: run_with_touch COMMAND ..
run_with_touch() {
    "$@" &
    first=$!
    wait_until is_waiting_for_touch && touch_key && wait "$first"
}

# Returns whether the key's last wait for a touch ended with a timeout: after 30 s, which may happen on a busy machine,
# or when the last program closed the device.
has_timed_out() {
    grep '^p ' second.log | tail -1 | grep -q 'timeout$'
}

# Runs a command while a sign-in waits for a touch. Then touches the key, waits for the sign-in, and runs the function
# check_after_touch, which the command has defined. If the wait for a touch timed out, tries again, up to five times:
# run_before_touch COMMAND
run_before_touch() {
    for _ in 1 2 3 4 5; do
        begin_sign_in && "$1" && is_waiting_for_touch && touch_key && wait "$first" && check_after_touch && return
        has_timed_out || return
        wait "$first"
    done
    return 1
}

# Sends getInfo with a second program, which has to wait until the first program ends, since libfido2 locks the device.
request_info_concurrently() {
    fido2-token -I "$device" >second.out &
    second=$!
    check_after_touch() { wait "$second" && grep -q FIDO_2_0 second.out; }
}

# Returns whether a process has a file open: has_file_open PID FILE
has_file_open() {
    for open in "/proc/$1/fd/"*; do
        [ "$(readlink "$open")" != "$2" ] || return 0
    done
    return 1
}

# Returns whether the device has sent a packet whose hexadecimal digits match a pattern: has_sent_packet PATTERN
has_sent_packet() {
    hexdump -ve '64/1 "%02x" "\n"' packets >seen && grep -q "$1" seen
}

# Writes a packet to the device, and reads packets until one matches a pattern: exchange_packet HEX PATTERN
exchange_packet() {
    dd if="$device" bs=64 >packets 2>/dev/null &
    reader=$!
    wait_until has_file_open "$reader" "$device" || return
    # Write the report ID (0) and the packet: printf converts the hexadecimal digits, which become escapes such as \x8a.
    # shellcheck disable=SC2059
    { printf "\\x00$(echo "$1" | sed 's/../\\x&/g')" && head -c 64 /dev/zero; } | head -c 65 >written
    dd if=written of="$device" bs=65 count=1 2>/dev/null && wait_until has_sent_packet "$2"
    status=$?
    kill "$reader"
    wait "$reader"
    return "$status"
}

# Allocates a channel with INIT and sends a PING on it, without locking the device. Since the first program's request is
# still in progress, the key must respond with ERR_CHANNEL_BUSY, and go on with that request.
send_without_lock() {
    check_after_touch() { :; }
    exchange_packet ffffffff8600080102030405060708 ^ffffffff8600110102030405060708 || return
    channel=$(sed -n 's/^ffffffff8600110102030405060708\(........\).*/\1/p' seen)
    exchange_packet "${channel}810001aa" "^${channel}bf000106"
}

# Sends getInfo until the key has responded ten times. Repeats failed calls, since a program may fail while another one
# has locked the device.
request_info_repeatedly() {
    for _ in $(seq 10); do
        wait_until fido2-token -I "$device" || return
    done
}

request_info_from_two_programs() {
    request_info_repeatedly &
    first=$!
    request_info_repeatedly && wait "$first"
}

# Kills a program whose registration waits for a touch. The key must create no credential, and respond to the next
# program.
kill_waiting_client() {
    { print_random && echo relying.example && echo mallory && print_random; } >mallory.in
    fido2-cred -M -r -i mallory.in "$device" >mallory.cred 2>&1 &
    first=$!
    wait_until is_waiting_for_touch && kill -9 "$first"
    ! wait "$first" && [ ! -s mallory.cred ] && fido2-token -I "$device" | grep -q FIDO_2_0 &&
        has_timed_out
}

# Runs the bridge as the user nobody, with an open descriptor of /dev/uhid. The bridge must create the device, respond,
# and exit after a signal.
run_without_root() {
    (exec 3<>/dev/uhid && run_as_nobody uhid -f 3 /tmp/other.state) 2>bridge.err &
    bridge=$!
    wait_until is_key_listed && device=$(sed 's/:.*//' listed) && fido2-token -I "$device" | grep -q FIDO_2_0 || return
    pid=$(pidof uhid) && kill -TERM "$pid" && wait "$bridge" && wait_until is_unplugged && [ -s /tmp/other.state ]
}

# Runs pamu2fcfg, and returns whether it registers a credential, as Debian 13's version does, or rejects the key's self
# attestation, as Debian 12's version does, which requires an attestation certificate.
configure_pam() {
    pamu2fcfg -n >configured 2>&1
    grep -q 'es256,+presence$' configured || grep -q FIDO_ERR_INVALID_ARGUMENT configured
}

has_pamtester() {
    command -v pamtester >/dev/null
}

# Runs a command as the user nobody: run_as_nobody COMMAND .. Uses setpriv of util-linux, since busybox's setpriv cannot
# change the user.
run_as_nobody() {
    /usr/bin/setpriv --reuid=65534 --regid=65534 --clear-groups "$@"
}

run_all() {
    expect_success "the module hid of the kernel $(uname -r)" insmod /modules/hid.ko
    expect_success "the module hid-generic" insmod /modules/hid-generic.ko
    expect_failure "a machine without /dev/uhid" "modprobe uhid" uhid key.state
    expect_success "the module uhid" insmod /modules/uhid.ko
    expect_failure "a user without access to /dev/uhid" "run hidlog-uhid as root" run_as_nobody uhid /tmp/key.state
    expect_success "fido2-token -L finds the device" plug_in first.log
    expect_success "fido2-token -I" fido2-token -I "$device"
    expect_success "fido2-cred registers alice, discoverable" register alice -r
    expect_success "fido2-assert signs in" sign_in alice
    expect_success "fido2-assert signs in again, and the counter increases by one" sign_in_and_check_counter
    expect_success "fido2-cred registers bob" register bob
    expect_success "fido2-assert signs in as bob" sign_in bob
    expect_failure "fido2-cred with EdDSA" UNSUPPORTED_ALGORITHM fido2-cred -M -i bob.in "$device" eddsa
    expect_failure "fido2-cred -u, by U2F" fido_dev_make_cred fido2-cred -M -u -i bob.in "$device"
    expect_success "ssh-keygen -t ecdsa-sk" create_ssh_key
    expect_success "ssh-keygen -Y sign" ssh-keygen -Y sign -f id -n file text
    expect_success "ssh-keygen -Y verify" verify_text
    expect_failure "ssh-keygen -Y verify of another text" "incorrect signature" verify_other_text
    expect_failure "ssh-keygen -t ed25519-sk" "not supported" ssh-keygen -q -t ed25519-sk -N '' -f other
    expect_failure "ssh-keygen -O resident" "not supported" ssh-keygen -q -t ecdsa-sk -O resident -N '' -f other
    if has_pamtester; then
        write_pam_files alice alice
        expect_success "pam_u2f.so signs in" pamtester hidlog root authenticate
        write_pam_files alice bob
        expect_failure "pam_u2f.so with another public key" "Authentication failure" pamtester hidlog root authenticate
        expect_success "pamu2fcfg registers, or refuses an attestation without a certificate, as before 1.3" configure_pam
    fi
    sign_in alice >/dev/null 2>&1
    expect_success "unplugged: the bridge exits, and the device disappears" unplug TERM
    expect_success "plugged in again, with -p ask" plug_in second.log -p ask
    expect_success "fido2-assert signs in after that, and the counter increases by one" run_with_touch sign_in_and_check_counter
    expect_success "two programs: libfido2's second one waits for the first" run_before_touch request_info_concurrently
    expect_success "two programs without a lock: the second one gets ERR_CHANNEL_BUSY" run_before_touch send_without_lock
    expect_success "two programs take turns" request_info_from_two_programs
    expect_success "a program killed while it registers: the next one is served at once" kill_waiting_client
    expect_success "fido2-assert signs in after that" run_with_touch sign_in alice
    kill -9 "$bridge"
    wait_until is_unplugged
    expect_success "plugged in again after the bridge was killed" plug_in third.log
    expect_success "fido2-assert signs in after that, and the counter increases by one" sign_in_and_check_counter
    expect_success "unplugged by an interrupt" unplug INT
    expect_success "a bridge of another user, which inherits a descriptor of /dev/uhid" run_without_root
    for log in first second third; do
        [ "$log" = first ] || load="--load $log.log.snapshot"
        # shellcheck disable=SC2086 # an option and its word
        expect_success "hidlog check of the $log recording" sh -c "hidlog check ${load-} < $log.log"
    done
}

run_all
echo "@@ end after $(cut -d' ' -f1 /proc/uptime) s"
poweroff -f
