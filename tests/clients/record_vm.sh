#!/bin/sh
# The init program of the virtual machine that record.sh boots: for each client, plugs in a key without credentials,
# runs the client, and writes the recording to the console, each line after "@log CLIENT". record.sh prints the lines
# that begin with "@@ ".
/bin/busybox --install -s /bin
export PATH=/bin:/usr/bin HOME=/root PYTHONDONTWRITEBYTECODE=1
mount -t proc proc /proc
mount -t sysfs sys /sys
mount -t devtmpfs dev /dev
cd /root || exit
device=/dev/hidraw0

# Waits at most ten seconds until a command succeeds.
wait_until() {
    for _ in $(seq 100); do
        "$@" >/dev/null 2>&1 && return
        usleep 100000
    done
    return 1
}

is_unplugged() {
    [ ! -e "$device" ]
}

# Runs a client with a new key, and prints the key's recording: record_client CLIENT COMMAND ..
record_client() {
    log=$1
    shift
    rm -f key.state
    uhid -r "$log.log" key.state &
    bridge=$!
    wait_until test -c "$device"
    if "$@" >out 2>&1 </dev/null; then
        echo "@@ ok $log"
    else
        echo "@@ FAILED $log"
        cat out
    fi
    kill "$bridge"
    wait "$bridge" || echo "@@ FAILED the bridge ended with $?"
    wait_until is_unplugged
    sed "s/^/@log $log /" "$log.log"
}

print_random() {
    head -c 32 /dev/urandom | base64
}

# Registers a credential for a user with fido2-cred, and verifies it: register USER OPTION ..
register() {
    user=$1
    shift
    { print_random && echo relying.example && echo "$user" && print_random; } >"$user.in"
    fido2-cred -M "$@" -i "$user.in" "$device" >"$user.cred" && fido2-cred -V -i "$user.cred" >"$user.public" &&
        sed 1d "$user.public" >"$user.pem"
}

# Signs in as a user with fido2-assert and two of its options, and verifies the assertion: sign_in USER OPTION OPTION
sign_in() {
    { print_random && echo relying.example && head -1 "$1.public"; } >"$1.asked"
    fido2-assert -G "$2" "$3" -i "$1.asked" "$device" >"$1.answer" && fido2-assert -V -i "$1.answer" "$1.pem" es256
}

run_libfido2_token() {
    fido2-token -L && fido2-token -I "$device"
}

run_libfido2_register() {
    register alice && sign_in alice -t up=true && sign_in alice -t up=true
}

run_libfido2_discoverable() {
    register alice -r && register bob -r && { print_random && echo relying.example; } >asked &&
        fido2-assert -G -r -i asked "$device"
}

run_libfido2_refused() {
    register alice && ! fido2-cred -M -i alice.in "$device" eddsa &&
        { print_random && echo other.example && head -1 alice.public; } >asked && ! fido2-assert -G -i asked "$device"
}

run_openssh_key() {
    ssh-keygen -q -t ecdsa-sk -N '' -C hidlog -f id && echo a text >text && ssh-keygen -Y sign -f id -n file text
}

run_openssh_untouched() {
    ssh-keygen -q -t ecdsa-sk -O no-touch-required -N '' -C hidlog -f un && echo a text >text &&
        ssh-keygen -Y sign -f un -n file text
}

run_openssh_refused() {
    ! ssh-keygen -q -t ed25519-sk -N '' -f other
}

run_pam_u2f() {
    register alice && printf 'root:%s,%s,es256,+presence\n' "$(head -1 alice.public)" \
        "$(grep -v -- ---- alice.pem | base64 -d | tail -c 64 | base64 -w 0)" >authfile &&
        printf 'auth required pam_u2f.so authfile=/root/authfile origin=relying.example appid=relying.example\n' \
            >/etc/pam.d/hidlog && pamtester hidlog root authenticate
}

for module in hid hid-generic uhid; do
    insmod "/modules/$module.ko" || echo "@@ FAILED insmod $module"
done
for client in libfido2_token libfido2_register libfido2_discoverable libfido2_refused openssh_key openssh_untouched \
    openssh_refused pam_u2f; do
    record_client "$client" "run_$client"
done
record_client python_fido2 python3 python_fido2.py
echo "@@ end after $(cut -d' ' -f1 /proc/uptime) s"
poweroff -f
