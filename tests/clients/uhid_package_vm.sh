#!/bin/bash
# The test cases of uhid_package.sh, which systemd runs in the virtual machine: libfido2's tools, OpenSSH and browsers
# use the key of the installed package hidlog-uhid, as a user other than root. For each case, prints a line for
# uhid_package.sh: "@@ ok CASE" or "@@ FAILED CASE".
cd /home/tester || exit
PATH=/usr/sbin:/usr/bin:/sbin:/bin

# Prints whether a case succeeded, and the end of the file `out`, its output, if it failed: print_result STATUS CASE
print_result() {
    if [ "$1" = 0 ]; then
        echo "@@ ok $2, $(cut -d. -f1 /proc/uptime) s after the start"
    else
        echo "@@ FAILED $2"
        tail -60 out | sed 's/^/    /'
    fi
}

# Runs a command that must succeed, and prints the result of the case: expect_success CASE COMMAND ..
expect_success() {
    "${@:2}" >out 2>&1 </dev/null
    print_result "$?" "$1"
}

# Runs a command as the user tester, who is in the group plugdev: run_as_tester COMMAND ..
run_as_tester() {
    setpriv --reuid=tester --regid=tester --init-groups env HOME=/home/tester "$@"
}

# Waits at most two minutes until a command succeeds.
wait_until() {
    for _ in $(seq 240); do
        "$@" >/dev/null 2>&1 && return
        sleep 0.5
    done
    return 1
}

start_service() {
    systemctl start "hidlog-uhid@$1" && wait_until test -c /dev/hidraw0
}

stop_service() {
    systemctl stop "hidlog-uhid@$1" && ! systemctl is-failed "hidlog-uhid@$1" && wait_until test ! -e /dev/hidraw0
}

# Returns whether the package's udev rule lets the group plugdev read and write the device.
is_owned_by_plugdev() {
    udevadm settle && stat -c '%a %G' /dev/hidraw0 && [ "$(stat -c '%a %G' /dev/hidraw0)" = "660 plugdev" ]
}

is_key_listed() {
    run_as_tester fido2-token -L | tee out | grep 'vendor=0x1209, product=0x0001'
}

print_random() {
    head -c 32 /dev/urandom | base64
}

register() {
    { print_random && echo relying.example && echo alice && print_random; } >made.in
    run_as_tester fido2-cred -M -r -i made.in /dev/hidraw0 >made.cred && fido2-cred -V -i made.cred >made.public &&
        sed 1d made.public >made.pem
}

sign_in() {
    { print_random && echo relying.example && head -1 made.public; } >asked
    run_as_tester fido2-assert -G -i asked /dev/hidraw0 >answer && fido2-assert -V -i answer made.pem es256
}

sign_with_ssh() {
    rm -f id id.pub text text.sig
    echo a text >text && chown tester text && run_as_tester ssh-keygen -q -t ecdsa-sk -N '' -C hidlog -f id &&
        run_as_tester ssh-keygen -Y sign -f id -n file text && echo "hidlog $(cat id.pub)" >signers &&
        ssh-keygen -Y verify -f signers -I hidlog -n file -s text.sig <text
}

# Checks that the service runs as the user hidlog-uhid, without capabilities and with a system call filter, and that
# only this user and root may open /dev/uhid and the state file.
check_confinement() {
    start_service alice && pid=$(systemctl show -P MainPID hidlog-uhid@alice) && cat "/proc/$pid/status" || return
    [ "$(stat -c %U "/proc/$pid")" = hidlog-uhid ] && [ "$(stat -c '%a %G' /dev/uhid)" = "660 hidlog-uhid" ] &&
        grep -qE '^CapEff:[[:space:]]+0+$' "/proc/$pid/status" && grep -qE '^Seccomp:[[:space:]]+2' "/proc/$pid/status" &&
        [ "$(stat -c '%a %U' /var/lib/hidlog-uhid/alice.state)" = "600 hidlog-uhid" ] && stop_service alice
}

# Starts the service with files that belong to root, as older versions of the package left them.
start_with_root_files() {
    chown -R root:root /var/lib/hidlog-uhid /var/log/hidlog-uhid && start_service alice && sign_in && stop_service alice
}

# Runs the service with a presence script that denies the first touch and grants all others.
run_presence_script() {
    printf 'denied\ngranted\n' >/etc/hidlog-script
    echo 'HIDLOG_UHID_OPTIONS="--presence script:/etc/hidlog-script --touch 50"' >/etc/default/hidlog-uhid
    start_service bob && is_owned_by_plugdev && ! register && register && sign_in && stop_service bob
    status=$?
    rm -f /etc/default/hidlog-uhid
    return "$status"
}

# Runs hidlog-uhid with --presence ask, and writes y to its standard input when it asks for a touch.
touch_by_typing() {
    mkfifo typed
    hidlog-uhid --presence ask --state asked.state <typed 2>asking &
    bridge=$!
    exec 5>typed
    wait_until is_owned_by_plugdev || return
    { wait_until grep -q 'asks for a touch' asking && echo y >&5; } &
    register && kill "$bridge" && wait "$bridge"
}

# Runs an unmodified browser, which opens a page that registers and signs in with the key. A web server verifies the
# responses: run_browser BROWSER
run_browser() {
    timeout 900 python3 /usr/local/lib/hidlog-browser.py "$@"
}

check_recording() {
    local load=()
    [ ! -e "/var/log/hidlog-uhid/$1.log.snapshot" ] || load=(--load "/var/log/hidlog-uhid/$1.log.snapshot")
    hidlog check "${load[@]}" "/var/log/hidlog-uhid/$1.log" && grep -c '^p .* granted' "/var/log/hidlog-uhid/$1.log"
}

rm -f /home/tester/out
touch out && chown tester /home/tester /home/tester/*
# Runs all cases that need no browser.
run_package_cases() {
    expect_success "systemctl start hidlog-uhid@alice, of the package" start_service alice
    expect_success "udev gives the device to the group plugdev" is_owned_by_plugdev
    expect_success "fido2-token -L, as a user" is_key_listed
    expect_success "fido2-cred registers" register
    expect_success "fido2-assert signs in" sign_in
    expect_success "ssh-keygen -t ecdsa-sk, -Y sign and -Y verify" sign_with_ssh
    expect_success "systemctl stop" stop_service alice
    expect_success "hidlog check of the recording" check_recording alice
    expect_success "systemctl start again" start_service alice
    expect_success "fido2-assert signs in with the earlier credential" sign_in
    expect_success "systemctl stop again" stop_service alice
    expect_success "the service runs as its own user, without a capability" check_confinement
    expect_success "the service takes over the files of a version that ran as root" start_with_root_files
    expect_success "hidlog check of the second recording, which begins with a snapshot" check_recording alice
    expect_success "--presence script denies the first touch" run_presence_script
    expect_success "hidlog check of that recording" check_recording bob
    expect_success "--presence ask" touch_by_typing
}

read -ra parts </etc/hidlog-cases
[[ " ${parts[*]} " != *" package "* ]] || run_package_cases
start_service carol
for browser in "${parts[@]}"; do
    [ "$browser" != package ] || continue
    expect_success "$browser registers and signs in" run_browser "$browser"
    [ ! -e versions ] || sed 's/^/@@ /' versions
done
stop_service carol
[ "${parts[*]}" = package ] || expect_success "hidlog check of the recording with browsers" check_recording carol
echo "@@ end after $(cut -d' ' -f1 /proc/uptime) s"
systemctl poweroff
