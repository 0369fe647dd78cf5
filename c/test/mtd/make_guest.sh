#!/usr/bin/env bash
# make_guest.sh FOLDER: a guest of Linux with the simulator of NAND flash, in FOLDER: Debian's kernel, QEMU, busybox and mtd-utils, which
# apt-get downloads and which are unpacked there; nothing is installed. Some 90 MB are fetched, 500 MB are unpacked. What is there is used
# again. Where packages cannot be had, it says so in one line and returns 3.
set -u
here=$(cd "$(dirname "$0")" && pwd)
mkdir -p "$1" && cd "$1" || exit 2
guest=$PWD

cannot() {
    echo "$1"
    exit 3
}

# The name of the kernel's package, and those of QEMU and what it needs that is not installed.
fetch() {
    command -v apt-get > /dev/null && command -v dpkg > /dev/null || cannot "no apt-get: the packages are Debian's"
    local kernel qemu
    kernel=$(apt-cache depends linux-image-amd64 2> /dev/null | awk '/Depends:/ { print $2; exit }')
    [ -n "$kernel" ] || cannot "apt knows no linux-image-amd64 (apt-get update?)"
    qemu=$(apt-get install -s --no-install-recommends qemu-system-x86 2> /dev/null | awk '/^Inst/ { print $2 }')
    apt-cache show qemu-system-x86 > log 2>&1 || cannot "apt knows no qemu-system-x86"
    # Its own parts also where they are installed: it looks for them beside itself.
    qemu=$(printf '%s\n' $qemu qemu-system-x86 qemu-system-common qemu-system-data seabios | sort -u)
    mkdir -p packages && cd packages || exit 2
    # shellcheck disable=SC2086 # names are words
    timeout 300 apt-get download -qq $qemu cpio busybox-static mtd-utils "$kernel" > ../log 2>&1 ||
        cannot "packages cannot be fetched: $(grep '^[EW]:' ../log | tail -n 1)"
    cd "$guest" || exit 2
}

unpack() {
    local package
    mkdir -p root
    for package in packages/*.deb; do dpkg -x "$package" root || return; done
    rm -r packages
}

# The file system that the kernel starts from. A module comes after those that it needs.
make_initramfs() {
    local version tree=initramfs module tool library file
    version=$(find root/lib/modules -mindepth 1 -maxdepth 1 -printf '%f\n' | head -n 1)
    rm -rf $tree
    mkdir -p $tree/{bin,modules,proc,sys,dev,tmp,share,lib64}
    cp root/bin/busybox $tree/bin/
    install -m 755 "$here/init" $tree/init
    for module in virtio_ring virtio virtio_pci_legacy_dev virtio_pci_modern_dev virtio_pci netfs fscache 9pnet 9pnet_virtio 9p bch mtd \
        nandcore nand nandsim; do
        file=$(find "root/lib/modules/$version" -name $module.ko | head -n 1)
        [ -n "$file" ] || continue # built in
        cp "$file" $tree/modules/
        [ $module = nandsim ] || echo $module
    done > $tree/modules.list
    for tool in nanddump nandwrite flash_erase; do cp root/usr/sbin/$tool $tree/bin/; done
    for library in $(ldd $tree/bin/{nanddump,nandwrite,flash_erase} | grep -o '/[^ ]*' | grep -v ':$' | sort -u); do
        mkdir -p "$tree$(dirname "$library")"
        cp -L "$library" "$tree$library"
    done
    [ -e $tree/modules/nandsim.ko ] || cannot "the kernel's package has no nandsim"
    cp "root/boot/vmlinuz-$version" vmlinuz
    (cd $tree && find . | "$guest/root/bin/cpio" -o -H newc --quiet) | gzip -1 > initrd.gz
}

[ "$(uname -m)" = x86_64 ] || cannot "the guest is of x86-64"
if [ ! -e unpacked ]; then
    fetch && unpack && touch unpacked || exit 2
fi
make_initramfs && rm -f log
