# For CMake: -DCMAKE_TOOLCHAIN_FILE=PATH/c/aarch64-linux-gnu.cmake compiles for 64-bit ARM. A toolchain file of another board
# sets FLASHFS_TARGET as this one does, or gives FLASH_C_ARCHIVE.
set(CMAKE_SYSTEM_NAME Linux)
set(CMAKE_SYSTEM_PROCESSOR aarch64)
set(CMAKE_C_COMPILER aarch64-linux-gnu-gcc)
set(FLASHFS_TARGET aarch64-linux-gnu)
