#!/bin/sh
# The init program of the virtual machine that hidraw.sh boots: plugs the key in by starting the bridge, runs the
# conformance tests, unplugs and plugs in the key when the tests ask for it, and powers off. hidraw.sh prints the lines
# that begin with "@@ ".
/bin/busybox --install -s /bin
export PATH=/bin:/usr/bin HOME=/root PYTHONDONTWRITEBYTECODE=1
mount -t proc proc /proc
mount -t sysfs sys /sys
mount -t devtmpfs dev /dev
cd /root || exit
bridge=

# Waits at most one minute until a command succeeds.
wait_until() {
    for _ in $(seq 600); do
        "$@" >/dev/null 2>&1 && return
        usleep 100000
    done
    return 1
}

is_unplugged() {
    [ ! -e /dev/hidraw0 ]
}

# Starts the bridge, which plugs the key in. The simulated user touches the key only after 1.5 s, since the cases check
# what happens before the touch. The bridge has a low priority, so that the test runner reads packets in time: the
# kernel queues only 64 packets of a hidraw device, and drops more.
plug_in() {
    /usr/bin/nice -n 19 uhid -t 1500 key.state 2>>bridge.err &
    bridge=$!
    wait_until test -c /dev/hidraw0
}

unplug() {
    kill "$bridge"
    wait "$bridge" || echo "@@ FAILED the bridge ended with $?"
    wait_until is_unplugged
}

for module in hid hid-generic uhid; do
    insmod "/modules/$module.ko" || echo "@@ FAILED insmod $module"
done
plug_in || echo "@@ FAILED there is no /dev/hidraw0"
mkfifo progress
/usr/bin/nice -n -20 xargs python3 /conformance/run.py --device /dev/hidraw0 --touch --reset </words >report 2>progress &
runner=$!
times=0
while read -r line; do
    case $line in
    "unplug the key now") unplug ;;
    "plug the key in again now")
        times=$((times + 1))
        plug_in
        ;;
    "playing "*) ;;
    *) echo "$line" ;;
    esac
done <progress
wait "$runner" || echo "@@ FAILED run.py ended with $?"
grep -v '^skipped' report | sed 's/^/@@ /'
grep '^skipped' report | sed 's/.*: //' | sort | uniq -c | sort -rn | sed 's/^/@@ skipped /'
unplug
echo "@@ the key was unplugged and plugged in again $times times"
[ ! -s bridge.err ] || sed 's/^/@@ FAILED the bridge: /' bridge.err
echo "@@ end after $(cut -d' ' -f1 /proc/uptime) s"
poweroff -f
