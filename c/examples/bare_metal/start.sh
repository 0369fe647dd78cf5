#!/usr/bin/env bash
# Starts the firmware over a flash that a file keeps: start.sh FIRMWARE FLASH. Its serial line is the standard output.
exec qemu-system-aarch64 -M virt -cpu cortex-a53 -m 64 -display none -monitor none -serial stdio -nic none -no-reboot \
    -drive if=pflash,unit=1,format=raw,file="$2" -kernel "$1" < /dev/null
