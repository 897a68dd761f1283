#!/usr/bin/env bash
# Tests the Debian package hidlog-uhid: installs it in a new Debian system, and boots the system in an emulated virtual
# machine, with systemd and udev. There libfido2's tools, OpenSSH and unmodified browsers use the key;
# uhid_package_vm.sh has the test cases. Takes 15 minutes. Needs root, debootstrap, a Debian mirror, e2fsprogs,
# qemu-system-x86 and busybox-static. Exits with 3 if a dependency is missing.
#
#     tests/clients/uhid_package.sh FOLDER [PACKAGES]
#
# FOLDER is for the Debian system, and is used again by the next run. PACKAGES is the output of packages/build.sh
# [default: builds the packages]. HIDLOG_CASES lists the cases to run: package, firefox and chromium [default: all
# except chromium, which is too slow].
# shellcheck disable=SC1091,SC2154 # top, name, work and image are set by common.sh and machine.sh
set -euo pipefail
source "$(dirname "${BASH_SOURCE[0]}")/common.sh"
folder=${1:?"usage: tests/clients/uhid_package.sh FOLDER [PACKAGES]"}
source "$(dirname "${BASH_SOURCE[0]}")/machine.sh"
require_commands debootstrap debootstrap mke2fs e2fsprogs
[ "$(id -u)" = 0 ] || exit_skipped "debootstrap needs root"
mkdir -p "$folder"
folder=$(cd "$folder" && pwd)
packages=${2-}
if [ -z "$packages" ]; then
    packages=$folder/packages
    rm -rf "$packages"
    "$top/packages/build.sh" "$packages" >/dev/null
fi
system=$folder/root

# Runs shell commands in the new system with chroot, and fails if they fail: run_in_system COMMANDS
run_in_system() {
    chroot "$system" /usr/bin/env -i PATH=/usr/sbin:/usr/bin:/sbin:/bin LANG=C.UTF-8 DEBIAN_FRONTEND=noninteractive \
        bash -euc "$1" >"$folder/inside.log" 2>&1 || { tail -20 "$folder/inside.log" && fail "this failed in the system: $1"; }
}

if [ ! -e "$system/.whole" ]; then
    rm -rf "$system"
    debootstrap --variant=minbase bookworm "$system" >"$folder/debootstrap.log" || exit_skipped "debootstrap failed (see $folder/debootstrap.log)"
    echo "deb http://deb.debian.org/debian-security bookworm-security main" >>"$system/etc/apt/sources.list"
    run_in_system 'apt-get -qq update && apt-get -qq install -y --no-install-recommends systemd systemd-sysv udev dbus kmod \
        openssh-client fido2-tools chromium firefox-esr python3-cryptography'
    touch "$system/.whole"
fi
find_kernel
# Remove the package that an earlier run has installed, if any, and install the new package with apt-get.
rm -rf "$system/packages"
mkdir "$system/packages"
cp "$packages"/hidlog_*_amd64.deb "$packages"/hidlog-uhid_*_amd64.deb "$system/packages"
run_in_system 'apt-get -qq purge -y hidlog-uhid hidlog || true
    apt-get -qq install -y ./packages/*.deb && hidlog-uhid --version && man -w hidlog-uhid 2>/dev/null || ls /usr/share/man/man8/hidlog-uhid.8.gz'
run_in_system 'id tester || useradd -m -u 1234 -U -G plugdev tester; systemctl enable hidlog-cases.service 2>/dev/null || true'
install -m 755 "$top/tests/clients/uhid_package_vm.sh" "$system/usr/local/sbin/hidlog-cases"
install -m 755 "$top/tests/clients/uhid_browser_vm.py" "$system/usr/local/lib/hidlog-browser.py"
echo "${HIDLOG_CASES:-package firefox}" >"$system/etc/hidlog-cases"
rm -rf "$system"/var/lib/hidlog-uhid "$system"/var/log/hidlog-uhid "$system"/home/tester/*
cat >"$system/etc/systemd/system/hidlog-cases.service" <<'END'
[Unit]
After=multi-user.target
[Service]
Type=oneshot
ExecStart=/bin/bash -c '/usr/local/sbin/hidlog-cases >/dev/ttyS0 2>&1'
[Install]
WantedBy=multi-user.target
END
mkdir -p "$system/etc/systemd/system/multi-user.target.wants"
ln -sf ../hidlog-cases.service "$system/etc/systemd/system/multi-user.target.wants/"
release=${image##*/vmlinuz-}
kernel=${modules%/drivers/hid}
mkdir -p "$system/lib/modules/$release/kernel/drivers"
cp -r "$modules" "$system/lib/modules/$release/kernel/drivers/"
run_in_system "depmod $release"

# Write the init program of the initramfs: it loads the drivers for the disk, and starts systemd from the disk.
mkdir -p "$root"/{bin,modules,proc,dev,new}
cp "$(command -v busybox)" "$root/bin/busybox"
order=(virtio/virtio_ring virtio/virtio virtio/virtio_pci_legacy_dev virtio/virtio_pci_modern_dev virtio/virtio_pci
    block/virtio_blk crc16 mbcache jbd2 crc32c_generic ext4)
{
    printf '%s\n' '#!/bin/busybox sh' '/bin/busybox mount -t proc proc /proc' '/bin/busybox mount -t devtmpfs dev /dev'
    for module in "${order[@]}"; do
        file=$(find "$kernel" -name "${module##*/}.ko*" | sed -n 1p)
        [ -n "$file" ] || continue
        case $file in *.xz) xz -dc "$file" ;; *) cat "$file" ;; esac >"$root/modules/${module##*/}.ko"
        echo "/bin/busybox insmod /modules/${module##*/}.ko"
    done
    printf '%s\n' 'while [ ! -e /dev/vda ]; do /bin/busybox usleep 100000; done' \
        '/bin/busybox mount -t ext4 /dev/vda /new' '/bin/busybox mount --move /dev /new/dev' \
        'exec /bin/busybox switch_root /new /sbin/init'
} >"$root/init"
chmod +x "$root/init"
(cd "$root" && find . | cpio -o -H newc --quiet -R 0:0 | gzip -1) >"$work/initramfs"
rm -f "$folder/disk"
mke2fs -q -t ext4 -d "$system" "$folder/disk" 4G
echo "$name: ${image##*/}, $("$system/usr/bin/dpkg-query" --admindir="$system/var/lib/dpkg" -W -f '${Package} ${Version}, ' \
    systemd udev openssh-client fido2-tools chromium firefox-esr)by software emulation"
machine=(-accel "tcg,thread=multi" -cpu max -smp 2 -m 3072 -nic none -display none -monitor none -serial stdio -no-reboot)
timeout "${HIDLOG_SECONDS:-2700}" qemu-system-x86_64 "${machine[@]}" -kernel "$image" -initrd "$work/initramfs" \
    -drive "file=$folder/disk,if=virtio,format=raw" \
    -append "console=ttyS0 quiet systemd.show_status=0 no_timer_check systemd.mask=serial-getty@ttyS0.service rw panic=-1" </dev/null >"$folder/console" 2>&1 || true
tr -d '\r' <"$folder/console" | sed -n "s,^@@ ,$name: ,p"
rm -f "$folder/disk"
if grep -q '^@@ FAILED' "$folder/console" || ! grep -q '^@@ end' "$folder/console"; then
    tr -d '\r' <"$folder/console" | tail -150
    fail "a case failed, or the virtual machine stopped before the last case"
fi
