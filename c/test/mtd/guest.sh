#!/usr/bin/env bash
# guest.sh GUEST FOLDER [SECONDS]: starts the guest that make_guest.sh made in GUEST, which does FOLDER/job.sh and ends. FOLDER is its
# /share; its console is FOLDER/console. The processor is a program: KVM is not used. The library needs SSE4.1, which `max` has.
set -u
guest=$1 folder=$2 limit=${3:-600}
LD_LIBRARY_PATH=$(find "$guest/root" -name '*.so*' -printf '%h\n' | sort -u | paste -sd ':')
export LD_LIBRARY_PATH
exec timeout "$limit" "$guest/root/usr/bin/qemu-system-x86_64" -accel tcg -cpu max -M pc -smp 1 -m 384 \
    -L "$guest/root/usr/share/seabios" -L "$guest/root/usr/share/qemu" -nodefaults -display none -no-reboot -net none \
    -serial "file:$folder/console" -kernel "$guest/vmlinuz" -initrd "$guest/initrd.gz" \
    -virtfs "local,path=$folder,mount_tag=share,security_model=none" \
    -append "console=ttyS0 quiet loglevel=3 panic=-1 mitigations=off rdinit=/init" > "$folder/qemu" 2>&1
