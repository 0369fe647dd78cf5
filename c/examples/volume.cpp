// The wrapper for C++ at work: a file is replaced by rename, and an error is caught.
#include "flash_volume.hpp"
#include "ram_nand.h"

#include <cstdio>

int main()
try {
    static ram_nand nand;
    if (ram_nand_make(&nand, 2048, 64, 64) != 0)
        return 1;
    flash::Volume::format(nand.driver, 2);
    ram_nand_power_up(&nand);
    flash::Volume volume(nand.driver);
    volume.mkdir("/etc", 1);
    for (std::uint64_t turn = 1; turn <= 3; turn++) {
        {
            flash::File file = volume.open("/etc/new", FLASH_WRONLY | FLASH_CREAT | FLASH_TRUNC, turn);
            file.write("settings", 8, turn);
            file.write_at("S", 1, 0, turn);
            if (file.stat().size != 8)
                return 1;
        }
        volume.rename("/etc/new", "/etc/settings", turn);
        volume.sync();
    }
    for (const std::string &name : volume.list("/etc"))
        std::printf("%s: %llu bytes\n", name.c_str(), static_cast<unsigned long long>(volume.stat("/etc/" + name).size));
    try {
        volume.rmdir("/etc");
        return 1;
    } catch (const flash::Error &error) {
        if (error.code() != FLASH_ENOTEMPTY)
            throw;
    }
    volume.unmount();
    ram_nand_free(&nand);
} catch (const flash::Error &error) {
    std::fprintf(stderr, "%s\n", error.what());
    return 1;
}
