# flash-fuse: a volume as a folder of Linux, over libfuse 3 (docs/LINUX.md).
#
#   make linux            $(OUT)/flash-fuse
#   make linux-test       $(OUT)/flash-fuse-trouble, the same sources over a flash that fails, remounted amid its calls (linux/test.sh)

PKG_CONFIG ?= pkg-config
LINUX_FLAGS = -D_GNU_SOURCE -D_FILE_OFFSET_BITS=64 -I. -Idrivers $(shell $(PKG_CONFIG) --cflags fuse3)
LINUX_LIBRARIES = $(shell $(PKG_CONFIG) --libs fuse3) -lpthread
LINUX_OBJECTS = $(patsubst linux/%.c,$(OUT)/linux/%.o,$(wildcard linux/*.c)) $(addprefix $(OUT)/drivers/,file_nand.o mtd_nand.o page_code.o)
# What the test's program puts itself before.
TROUBLED = device_open volume_now volume_leave

linux: $(OUT)/flash-fuse
linux-test: $(OUT)/flash-fuse $(OUT)/flash-fuse-trouble

has-fuse:
	@$(PKG_CONFIG) --exists fuse3 || { echo 'flash-fuse needs libfuse 3 and pkg-config (on Debian: apt-get install libfuse3-dev pkg-config)'; exit 1; }

$(OUT)/linux $(OUT)/drivers:
	mkdir -p $@

$(OUT)/linux/%.o: linux/%.c $(wildcard linux/*.h drivers/*.h) flash_fs.h Makefile linux/linux.mk | has-fuse $(OUT)/linux
	$(CC) $(WARNINGS) $(CFLAGS) $(LINUX_FLAGS) -c -o $@ $<

$(OUT)/linux/trouble.o: linux/test/trouble.c $(wildcard linux/*.h drivers/*.h) flash_fs.h Makefile linux/linux.mk | has-fuse $(OUT)/linux
	$(CC) $(WARNINGS) $(CFLAGS) $(LINUX_FLAGS) -Ilinux -c -o $@ $<

$(OUT)/drivers/%.o: drivers/%.c $(wildcard drivers/*.h) flash_fs.h Makefile | $(OUT)/drivers
	$(CC) $(WARNINGS) $(CFLAGS) -I. -c -o $@ $<

$(OUT)/flash-fuse: $(LINUX_OBJECTS) $(OUT)/libflashfs.a
	$(CC) $(CFLAGS) -o $@ $^ $(LINUX_LIBRARIES)

$(OUT)/flash-fuse-trouble: $(LINUX_OBJECTS) $(OUT)/linux/trouble.o $(OUT)/libflashfs.a
	$(CC) $(CFLAGS) $(TROUBLED:%=-Wl,--wrap=%) -o $@ $^ $(LINUX_LIBRARIES)

install: install-linux
install-linux: all
	if [ -e $(OUT)/flash-fuse ]; then \
		mkdir -p $(DESTDIR)$(PREFIX)/bin $(DESTDIR)$(PREFIX)/share/man/man1 && \
		install -m 755 $(OUT)/flash-fuse $(DESTDIR)$(PREFIX)/bin && \
		install -m 644 linux/flash-fuse.1 $(DESTDIR)$(PREFIX)/share/man/man1; \
	fi

.PHONY: linux linux-test has-fuse install-linux
