// A volume for C++: errors are exceptions, files and mounts end with their objects. It is an example; the interface is C's.
#ifndef FLASH_VOLUME_HPP
#define FLASH_VOLUME_HPP

#include "flash_fs.h"

#include <cstdint>
#include <stdexcept>
#include <string>
#include <utility>
#include <vector>

namespace flash {

// What a function of flash_fs.h returned that was below 0.
class Error : public std::runtime_error {
public:
    Error(const std::string &what, std::int64_t code) : std::runtime_error(what + ": " + std::to_string(code)), code_(code) {}
    std::int64_t code() const { return code_; }

private:
    std::int64_t code_;
};

inline std::int64_t checked(const std::string &what, std::int64_t code)
{
    if (code < 0)
        throw Error(what, code);
    return code;
}

class Volume;

// An open file. It is closed with the object.
class File {
public:
    File(File &&other) noexcept : fs_(std::exchange(other.fs_, nullptr)), fd_(other.fd_) {}
    File &operator=(File &&) = delete;
    ~File()
    {
        if (fs_ != nullptr)
            flash_fs_close(fs_, fd_);
    }

    std::size_t read(void *buffer, std::size_t size)
    {
        return static_cast<std::size_t>(checked("read", flash_fs_read(fs_, fd_, buffer, size)));
    }

    // Writes all the bytes, or throws; some of them may be written then.
    void write(const void *bytes, std::size_t size, std::uint64_t moment = 0)
    {
        const char *at = static_cast<const char *>(bytes);
        while (size > 0) {
            std::int64_t count = checked("write", flash_fs_write(fs_, fd_, at, size, moment));
            at += count;
            size -= static_cast<std::size_t>(count);
        }
    }

    // The same at an offset of its own; that of the file stays.
    std::size_t read_at(void *buffer, std::size_t size, std::int64_t offset)
    {
        return static_cast<std::size_t>(checked("pread", flash_fs_pread(fs_, fd_, buffer, size, offset)));
    }
    void write_at(const void *bytes, std::size_t size, std::int64_t offset, std::uint64_t moment = 0)
    {
        const char *at = static_cast<const char *>(bytes);
        while (size > 0) {
            std::int64_t count = checked("pwrite", flash_fs_pwrite(fs_, fd_, at, size, offset, moment));
            at += count;
            offset += count;
            size -= static_cast<std::size_t>(count);
        }
    }

    flash_info stat()
    {
        flash_info info;
        checked("fstat", flash_fs_fstat(fs_, fd_, &info));
        return info;
    }

    void seek(std::int64_t offset) { checked("seek", flash_fs_seek(fs_, fd_, offset, FLASH_SEEK_SET)); }
    void truncate(std::int64_t length, std::uint64_t moment = 0)
    {
        checked("truncate", flash_fs_truncate(fs_, fd_, length, moment));
    }
    void sync() { checked("fsync", flash_fs_fsync(fs_, fd_)); }

private:
    friend class Volume;
    File(flash_fs *fs, int fd) : fs_(fs), fd_(fd) {}
    flash_fs *fs_;
    int fd_;
};

// A mounted volume. Files of it must end before it does.
class Volume {
public:
    static void format(const flash_driver &driver, std::uint32_t spare)
    {
        flash_fs fs = {};
        checked("format", flash_fs_format(&fs, &driver, spare));
    }

    explicit Volume(const flash_driver &driver) { checked("mount", flash_fs_mount(&fs_, &driver)); }
    Volume(const Volume &) = delete;
    Volume &operator=(const Volume &) = delete;
    ~Volume() { flash_fs_abandon(&fs_); } // nothing to do after an unmount

    // Makes all durable and ends the mount. A volume that ends without it loses what was not synced.
    void unmount() { checked("unmount", flash_fs_unmount(&fs_)); }
    void sync() { checked("sync", flash_fs_sync(&fs_)); }

    File open(const std::string &path, std::uint32_t flags, std::uint64_t moment = 0)
    {
        return File(&fs_, static_cast<int>(checked(path, flash_fs_open(&fs_, path.c_str(), flags, moment))));
    }

    void mkdir(const std::string &path, std::uint64_t moment = 0) { checked(path, flash_fs_mkdir(&fs_, path.c_str(), moment)); }
    void rmdir(const std::string &path, std::uint64_t moment = 0) { checked(path, flash_fs_rmdir(&fs_, path.c_str(), moment)); }
    void unlink(const std::string &path, std::uint64_t moment = 0)
    {
        checked(path, flash_fs_unlink(&fs_, path.c_str(), moment));
    }
    void rename(const std::string &from, const std::string &to, std::uint64_t moment = 0)
    {
        checked(from, flash_fs_rename(&fs_, from.c_str(), to.c_str(), moment));
    }

    flash_info stat(const std::string &path)
    {
        flash_info info;
        checked(path, flash_fs_stat(&fs_, path.c_str(), &info));
        return info;
    }

    std::vector<std::string> list(const std::string &path)
    {
        std::vector<char> buffer(1024);
        std::int64_t size;
        while ((size = flash_fs_list(&fs_, path.c_str(), buffer.data(), buffer.size())) == FLASH_ERANGE)
            buffer.resize(2 * buffer.size());
        checked(path, size);
        std::vector<std::string> names;
        for (const char *name = buffer.data(); name < buffer.data() + size; name += names.back().size() + 1)
            names.push_back(name);
        return names;
    }

private:
    flash_fs fs_ = {};
};

} // namespace flash
#endif
