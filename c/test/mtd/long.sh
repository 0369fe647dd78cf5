# By hand, half an hour: the chips of docs/FIRMWARE.md, 500 sessions with cuts on each, flipped bits.
. /share/parts.sh
layouts() { # CODES PARAMETERS
    codes=$1
    shift
    for code in $codes; do part "layout, $* $code" "$@" $code -- ./try_driver layout /dev/mtd0; done
}
checked() { # TAG_BYTES CORRECTED PARAMETERS
    tag=$1 corrected=$2
    shift 2
    part "driver_check, tags of $tag bytes, $*" "$@" -- ./try_driver check /dev/mtd0 $tag 3 $corrected
}
lived() { # SEED PARAMETERS
    seed=$1
    shift
    part "500 sessions with cuts, $*" "$@" -- ./try_volume /dev/mtd0 4 500 45 30000 $seed all
}
layouts bch=0 id_bytes=0x98,0x76 # 512 + 16; bch=0: Hamming
layouts "bch=0 bch=1 bch=2 bch=4 bch=8" $SMALL
layouts "bch=0 bch=1 bch=4 bch=8" $MIDDLE parts=16
layouts "bch=0 bch=1 bch=4 bch=8" $LARGE
layouts "bch=1 bch=4 bch=8" $WIDE parts=16 # the kernel has no Hamming layout for it
checked 48 1 $SMALL_32 overridesize=4 bch=1
checked 48 1 $MIDDLE parts=16
checked 48 8 $MIDDLE parts=16 bch=8
checked 48 4 $LARGE_32 overridesize=4 bch=4
checked 48 4 $WIDE parts=16 bch=4
checked 48 8 $WIDE parts=16 bch=8
checked 24 1 $SMALL_32 overridesize=4
checked 24 1 $LARGE_32 overridesize=4
part "flipped bits, Hamming" $LARGE overridesize=5 bitflips=1 -- ./try_driver reread /dev/mtd0 60000
lived 1 $SMALL overridesize=4 bch=1
lived 2 $MIDDLE parts=17
lived 3 $MIDDLE parts=17 bch=8
lived 4 $LARGE overridesize=4
lived 5 $LARGE overridesize=4 bch=4
lived 6 $WIDE parts=17 bch=8
lived 7 $SMALL overridesize=4
lived 8 $SMALL overridesize=4 bch=4
