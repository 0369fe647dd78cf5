# For the jobs, in the guest. A part: NAME PARAMETERS.. -- COMMAND..: a chip of the simulator with these parameters, and a command with it.
# It ends in a line "@@ ok SECONDS NAME" or "@@ FAIL STATUS NAME".
part() {
    name=$1 parameters=
    shift
    while [ "$1" != -- ]; do
        parameters="$parameters $1"
        shift
    done
    shift
    begun=$(cut -d. -f1 /proc/uptime)
    echo "== $name:$parameters: $*"
    insmod /modules/nandsim.ko $parameters && "$@" 2>&1
    status=$?
    rmmod nandsim || status=99
    if [ $status -eq 0 ]; then
        echo "@@ ok $(($(cut -d. -f1 /proc/uptime) - begun)) $name"
    else
        echo "@@ FAIL $status $name"
    fi
}

# Chips of the simulator: pages + spare area, blocks of 64 pages, and some of 32, which a check goes through in half the time.
LARGE="id_bytes=0x20,0xa1,0x00,0x26" # 4,096 + 128
LARGE_32="id_bytes=0x20,0xa1,0x00,0x16"
SMALL="id_bytes=0x20,0xa1,0x00,0x15" # 2,048 + 64
SMALL_32="id_bytes=0x20,0xa1,0x00,0x05"
MIDDLE="id_bytes=0x98,0xdc,0x91,0x15,0x76" # 2,048 + 128
WIDE="id_bytes=0x98,0xdc,0x90,0x26,0x76,0x15,0x01,0x08" # 4,096 + 224
