# shellcheck shell=bash
# Functions that build and boot a virtual machine in which the bridge of bridges/uhid makes the key a kernel device. The
# virtual machine is emulated by qemu, and has a Debian kernel and an initramfs. Source this file after common.sh.
#
#     HIDLOG_KERNEL=FOLDER    use the kernel in FOLDER, an unpacked linux-image package [default: the installed kernel, or
#                             the one that tests/run --install unpacked in /var/cache/hidlog/kernel or
#                             ~/.cache/hidlog/kernel, or one that apt-get downloads, 70 MB]
#     HIDLOG_OFFLINE=1        do not download a kernel
# shellcheck disable=SC2154 # top, name and library are set by common.sh
PATH=$PATH:/usr/sbin:/sbin
require_commands gcc "gcc libc6-dev" nm binutils qemu-system-x86_64 qemu-system-x86 busybox busybox-static cpio cpio xz xz-utils \
    dpkg-deb dpkg
busybox 2>&1 | grep -q insmod || exit_skipped "busybox has no insmod (apt-get install busybox-static)"
ldd "$(command -v busybox)" >/dev/null 2>&1 && exit_skipped "busybox isn't static (apt-get install busybox-static)"
require_header openssl/evp.h libssl-dev
require_header linux/uhid.h linux-libc-dev
require_in_memory_key
work=$(mktemp -d)
trap 'rm -rf "$work"' EXIT
root=$work/root

# Selects the kernel in a folder: sets $image to the kernel's file, and $modules to the folder of its HID modules. Fails
# if there is no kernel, or it has no module uhid: select_kernel FOLDER
select_kernel() {
    image=$(find "$1/boot" -name 'vmlinuz-*' 2>/dev/null | sort -V | tail -1)
    modules=$1/lib/modules/${image##*/vmlinuz-}/kernel/drivers/hid
    [ -d "$modules" ] || modules=$1/usr${modules#"$1"} # Debian 13's package, unpacked
    [ -n "$image" ] && [ -r "$image" ] && compgen -G "$modules/uhid.ko*" >/dev/null
}

# Selects an installed or unpacked kernel that has the module uhid, or downloads one. Exits with 3 if there is none.
find_kernel() {
    local package
    if [ -n "${HIDLOG_KERNEL-}" ]; then
        select_kernel "$HIDLOG_KERNEL" || exit_skipped "HIDLOG_KERNEL=$HIDLOG_KERNEL has no kernel with the module uhid"
    elif ! select_kernel "" && ! select_kernel /var/cache/hidlog/kernel &&
        ! select_kernel "${XDG_CACHE_HOME:-${HOME-}/.cache}/hidlog/kernel"; then
        [ -z "${HIDLOG_OFFLINE-}" ] || exit_skipped "no kernel with uhid is installed (tests/run --install)"
        package=$(apt-cache depends linux-image-amd64 2>/dev/null | sed -n 's/^ *Depends: //p' | head -1)
        (cd "$work" && apt-get download "${package:-linux-image-amd64}" && dpkg-deb -x "$package"_*.deb kernel) \
            >"$work/output" 2>&1 || true
        select_kernel "$work/kernel" || exit_skipped "a kernel is missing (apt-get install linux-image-amd64)"
    fi
}

# Copies programs and libraries, and the libraries that they need, to the same paths in the virtual machine:
# copy_programs FILE ..
copy_programs() {
    local file needed
    for file in "$@"; do
        while read -r needed; do
            install -D -m 755 "$needed" "$root/$needed"
        done < <(echo "$file" && { ldd "$file" 2>/dev/null || true; } | grep -o '/[^ ]*')
    done
}

# Copies Debian's Python to the virtual machine, with all modules that the script on standard input imports (except
# those in conformance/), and the OpenSSL module that python3-cryptography loads. Python finds modules in each FOLDER,
# too: copy_python FOLDER ..
copy_python() {
    local files
    mapfile -t files < <(
        { cat && printf '%s\n' 'import encodings.idna, sys' 'print(sys.executable)' \
            'for module in list(sys.modules.values()):' '    path = getattr(module, "__file__", None)' \
            '    if path and path.startswith("/") and "/conformance/" not in path:' '        print(path)'; } |
            PYTHONDONTWRITEBYTECODE=1 PYTHONPATH=$(IFS=: && echo "$*") /usr/bin/python3 -
    )
    [ ${#files[@]} -gt 1 ] || { echo "$name: /usr/bin/python3 cannot import the modules for the virtual machine" >&2 && exit 1; }
    copy_programs "${files[@]}" "$(find /usr/lib -name legacy.so -path '*ossl-modules*' | head -1)"
}

# Fills $root, the folder from which boot_machine makes the initramfs, with kernel modules, busybox, hidlog and the
# bridge. The script INIT of this folder becomes the init program: build_initramfs INIT
build_initramfs() {
    local parts module file
    find_kernel
    parts=("$top"/bridges/uhid/{uhid,packet_queue,user,options}.c "$top/bridges/ssh/state.c"
        "$top"/examples/c/{virtual_key,private_file,software_keys,snapshot}.c)
    mkdir -p "$root"/{bin,dev,etc/pam.d,modules,proc,root,sys,tmp}
    # Compile the bridge with sanitizers that end it at the first error, with an exit status other than 0.
    compile -g -fsanitize=address,undefined -fno-sanitize-recover=all -I "$top/bridges/ssh" -o "$root/bin/uhid" \
        "${parts[@]}" "$library/libhidlog.a" -lcrypto
    cp "$(command -v busybox)" "$root/bin/busybox"
    ln -s busybox "$root/bin/sh"
    cp "$library/hidlog" "$root/bin/hidlog"
    install -m 755 "$top/tests/clients/$1" "$root/init"
    for module in hid uhid hid-generic; do
        file=$(compgen -G "$modules/$module.ko*")
        case $file in *.xz) xz -dc "$file" ;; *) cat "$file" ;; esac >"$root/modules/$module.ko"
    done
    copy_programs "$root/bin/uhid" "$root/bin/hidlog"
    rm -rf "${root:?}/$work"
    echo root:x:0:0:root:/root:/bin/sh >"$root/etc/passwd"
    chmod 1777 "$root/tmp"
}

# Boots the virtual machine, waits until it powers off, and prints the lines of its console that begin with "@@ ". Fails
# if a case failed, or if it takes more than SECONDS: boot_machine SECONDS
boot_machine() {
    # Emulate the processor (TCG), since KVM is not always available. With these options, qemu also exits if the kernel
    # panics.
    local machine=(-accel tcg -cpu max -m 512 -nic none -display none -monitor none -serial stdio -no-reboot)
    (cd "$root" && find . | cpio -o -H newc --quiet -R 0:0 | gzip -1) >"$work/initramfs"
    timeout "$1" qemu-system-x86_64 "${machine[@]}" -kernel "$image" -initrd "$work/initramfs" \
        -append "console=ttyS0 quiet panic=-1 no_timer_check" </dev/null >"$work/console" 2>&1 ||
        { tail -40 "$work/console" && fail "qemu failed, or the virtual machine did not power off within $1 s"; }
    tr -d '\r' <"$work/console" | sed -n "s,^@@ ,$name: ,p"
    if grep -q '^@@ FAILED' "$work/console" || ! grep -q '^@@ end' "$work/console"; then
        tr -d '\r' <"$work/console" | tail -80
        fail "a case failed, or the virtual machine stopped before the last case"
    fi
}
