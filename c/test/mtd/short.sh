# What c/test.sh runs in the guest.
. /share/parts.sh
part "try_mtd" $LARGE overridesize=6 -- ./try_mtd /dev/mtd0
part "try_mtd, three bad blocks" $LARGE overridesize=5 badblocks=0,1,7 -- ./try_mtd /dev/mtd0
part "try_mtd, 38 free bytes: tags of 24" $SMALL overridesize=6 -- ./try_mtd /dev/mtd0
part "a chip with 8 free bytes is refused" id_bytes=0x98,0x76 -- ./try_driver refused /dev/mtd0 -205
part "a chip of several bits in a cell is refused" id_bytes=0x20,0xa1,0x04,0x26 -- ./try_driver refused /dev/mtd0 -202
part "a chip of 4 GiB has too many blocks" id_bytes=0x20,0xd7,0x00,0x26 -- ./try_driver refused /dev/mtd0 -206
part "the last blocks of 4 GiB" id_bytes=0x20,0xd7,0x00,0x26 -- ./try_driver last /dev/mtd0 16300
part "a block whose first page fails is marked" $LARGE overridesize=5 weakpages=320:0 -- ./try_driver mark /dev/mtd0 5
part "driver_check, 4,096 + 128, Hamming" $LARGE_32 overridesize=4 -- ./try_driver check /dev/mtd0 48 3 1
part "driver_check, 2,048 + 64, BCH-4, tags of 24 bytes" $SMALL_32 overridesize=4 bch=4 -- ./try_driver check /dev/mtd0 24 3 3
# An image as raw pages to the chip, mounted there, read out, and an image of that; the tree is the same. In memory: /share is slow.
raw_pages() (
    cd /tmp && words=$(/share/flash-raw layout /dev/mtd0) && /share/make_image c.img || return
    /share/try_volume tree c.img > wanted && /share/flash-raw to-pages --skip-erased $words c.img pages || return
    nandwrite -q --oob --skip-all-ffs /dev/mtd0 pages && /share/try_volume tree /dev/mtd0 > there && cmp wanted there || return
    nanddump -q --oob --bb=dumpbad --file=dump /dev/mtd0 && /share/flash-raw to-image $words dump back.img || return
    /share/try_volume tree back.img > there && cmp wanted there
)
part "raw pages of an image to a chip with bad blocks, and back" $SMALL overridesize=7 bch=1 badblocks=0,5 -- raw_pages
part "raw pages with tags of 24 bytes, and back" $SMALL overridesize=7 badblocks=0,5 -- raw_pages
part "30 sessions, bad and weak blocks" $LARGE overridesize=5 badblocks=0,7 weakblocks=2:1,3:2,5:0 weakpages=579:0 -- \
    ./try_volume /dev/mtd0 6 30 100 40000 2
part "20 sessions with cuts, 4,096 + 128" $LARGE overridesize=4 -- ./try_volume /dev/mtd0 4 20 45 30000 11 all
part "20 sessions with cuts, 2,048 + 128, BCH-8" $MIDDLE bch=8 parts=17 -- ./try_volume /dev/mtd0 4 20 45 30000 12 all
part "20 sessions with cuts, 2,048 + 64, BCH-4, tags of 24 bytes" $SMALL overridesize=4 bch=4 -- ./try_volume /dev/mtd0 4 20 45 30000 13 all
