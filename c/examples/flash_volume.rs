// A volume for Rust, over flash_fs.h. It is an example; the interface is C's.
use std::ffi::{c_char, c_int, c_void, CString};
use std::marker::PhantomPinned;
use std::pin::Pin;

const EINVAL: i64 = -22;
const ENOVOLUME: c_int = -19;
const READ: u32 = 1;
const WRITE: u32 = 2;
const CREATE: u32 = 4;
const APPEND: u32 = 32;

/// A NAND flash, with what flash_fs.h promises and asks. `None` and `Err` are a loss of power.
pub trait Nand {
    fn sizes(&self) -> (u32, u32, u32);
    fn is_bad(&mut self, block: u32) -> Option<bool>;
    /// The kind of the page: 0 erased, 1 written (then data, where it is wanted, and tag are filled), 2 uncorrectable.
    fn read(&mut self, block: u32, page: u32, data: Option<&mut [u8]>, tag: &mut [u8; 48]) -> Option<c_int>;
    /// Whether it was done; false where the chip failed.
    fn program(&mut self, block: u32, page: u32, data: &[u8], tag: &[u8; 48]) -> Option<bool>;
    fn erase(&mut self, block: u32) -> Option<bool>;
    fn mark_bad(&mut self, block: u32) -> Option<()>;
}

#[repr(C)]
struct Driver {
    context: *mut c_void,
    sizes: [u32; 3],
    is_bad: unsafe extern "C" fn(*mut c_void, u32) -> c_int,
    read_tag: unsafe extern "C" fn(*mut c_void, u32, u32, *mut u8) -> c_int,
    read_page: unsafe extern "C" fn(*mut c_void, u32, u32, *mut u8, *mut u8) -> c_int,
    program: unsafe extern "C" fn(*mut c_void, u32, u32, *const u8, *const u8) -> c_int,
    erase: unsafe extern "C" fn(*mut c_void, u32) -> c_int,
    mark_bad: unsafe extern "C" fn(*mut c_void, u32) -> c_int,
    tag_bytes: u32,
}

#[repr(C, align(16))]
struct Fs([u8; 1024]);

/// What is reported of a file: the fields of `struct flash_info`.
#[repr(C)]
#[derive(Clone, Copy, Debug, Default)]
pub struct Info {
    pub kind: u64,
    pub object: u64,
    pub links: u64,
    pub size: u64,
    pub moment: u64,
}

#[link(name = "flashfs", kind = "static")]
unsafe extern "C" {
    fn flash_fs_format(fs: *mut Fs, driver: *const Driver, spare: u32) -> c_int;
    fn flash_fs_mount(fs: *mut Fs, driver: *const Driver) -> c_int;
    fn flash_fs_unmount(fs: *mut Fs) -> c_int;
    fn flash_fs_abandon(fs: *mut Fs);
    fn flash_fs_mkdir(fs: *mut Fs, path: *const c_char, moment: u64) -> c_int;
    fn flash_fs_open(fs: *mut Fs, path: *const c_char, flags: u32, moment: u64) -> c_int;
    fn flash_fs_close(fs: *mut Fs, fd: c_int) -> c_int;
    fn flash_fs_write(fs: *mut Fs, fd: c_int, bytes: *const c_void, size: usize, moment: u64) -> i64;
    fn flash_fs_pread(fs: *mut Fs, fd: c_int, buffer: *mut c_void, size: usize, offset: i64) -> i64;
    fn flash_fs_pwrite(fs: *mut Fs, fd: c_int, bytes: *const c_void, size: usize, offset: i64, moment: u64) -> i64;
    fn flash_fs_fstat(fs: *mut Fs, fd: c_int, info: *mut Info) -> c_int;
    fn flash_fs_list(fs: *mut Fs, path: *const c_char, buffer: *mut c_char, size: usize) -> i64;
}

// A callback does not unwind into C: a panic in it ends the program, as `extern "C"` does.
unsafe extern "C" fn is_bad<N: Nand>(nand: *mut c_void, block: u32) -> c_int {
    unsafe { &mut *(nand as *mut N) }.is_bad(block).map_or(-1, c_int::from)
}
unsafe extern "C" fn read_tag<N: Nand>(nand: *mut c_void, block: u32, page: u32, tag: *mut u8) -> c_int {
    unsafe { (*(nand as *mut N)).read(block, page, None, &mut *(tag as *mut [u8; 48])) }.unwrap_or(-1)
}
unsafe extern "C" fn read_page<N: Nand>(nand: *mut c_void, block: u32, page: u32, data: *mut u8, tag: *mut u8) -> c_int {
    let nand = unsafe { &mut *(nand as *mut N) };
    let data = unsafe { std::slice::from_raw_parts_mut(data, nand.sizes().0 as usize) };
    nand.read(block, page, Some(data), unsafe { &mut *(tag as *mut [u8; 48]) }).unwrap_or(-1)
}
unsafe extern "C" fn program<N: Nand>(nand: *mut c_void, block: u32, page: u32, data: *const u8, tag: *const u8) -> c_int {
    let nand = unsafe { &mut *(nand as *mut N) };
    let data = unsafe { std::slice::from_raw_parts(data, nand.sizes().0 as usize) };
    nand.program(block, page, data, unsafe { &*(tag as *const [u8; 48]) }).map_or(-1, |done| c_int::from(!done))
}
unsafe extern "C" fn erase<N: Nand>(nand: *mut c_void, block: u32) -> c_int {
    unsafe { &mut *(nand as *mut N) }.erase(block).map_or(-1, |done| c_int::from(!done))
}
unsafe extern "C" fn mark_bad<N: Nand>(nand: *mut c_void, block: u32) -> c_int {
    unsafe { &mut *(nand as *mut N) }.mark_bad(block).map_or(-1, |()| 0)
}

/// A mounted volume, which keeps its device. Dropped without an unmount it loses what was not synced.
pub struct Volume<N: Nand> {
    fs: Fs,
    driver: Driver,
    nand: N,
    _pinned: PhantomPinned,
}

fn checked(code: i64) -> Result<i64, i64> {
    if code < 0 { Err(code) } else { Ok(code) }
}

impl<N: Nand> Volume<N> {
    /// Mounts a device; one without a volume is formatted first.
    pub fn mount(nand: N, spare: u32) -> Result<Pin<Box<Volume<N>>>, i64> {
        let (bytes, pages, blocks) = nand.sizes();
        let driver = Driver {
            context: std::ptr::null_mut(),
            sizes: [bytes, pages, blocks],
            is_bad: is_bad::<N>,
            read_tag: read_tag::<N>,
            read_page: read_page::<N>,
            program: program::<N>,
            erase: erase::<N>,
            mark_bad: mark_bad::<N>,
            tag_bytes: 48,
        };
        let mut volume = Box::pin(Volume { fs: Fs([0; 1024]), driver, nand, _pinned: PhantomPinned });
        let this = unsafe { volume.as_mut().get_unchecked_mut() } as *mut Volume<N>;
        unsafe {
            (*this).driver.context = &raw mut (*this).nand as *mut c_void;
            let (fs, driver) = (&raw mut (*this).fs, &raw const (*this).driver);
            let mut code = flash_fs_mount(fs, driver);
            if code == ENOVOLUME {
                checked(flash_fs_format(fs, driver, spare).into())?;
                code = flash_fs_mount(fs, driver);
            }
            checked(code.into())?;
        }
        Ok(volume)
    }
    fn fs(self: Pin<&mut Self>) -> *mut Fs {
        unsafe { &raw mut self.get_unchecked_mut().fs }
    }
    pub fn unmount(self: Pin<&mut Self>) -> Result<i64, i64> {
        checked(unsafe { flash_fs_unmount(self.fs()) }.into())
    }
    pub fn mkdir(self: Pin<&mut Self>, path: &str, moment: u64) -> Result<i64, i64> {
        let path = CString::new(path).map_err(|_| EINVAL)?;
        checked(unsafe { flash_fs_mkdir(self.fs(), path.as_ptr(), moment) }.into())
    }
    pub fn append(self: Pin<&mut Self>, path: &str, bytes: &[u8], moment: u64) -> Result<i64, i64> {
        let (fs, path) = (self.fs(), CString::new(path).map_err(|_| EINVAL)?);
        let fd = checked(unsafe { flash_fs_open(fs, path.as_ptr(), WRITE | CREATE | APPEND, moment) }.into())? as c_int;
        let wrote = unsafe { flash_fs_write(fs, fd, bytes.as_ptr().cast(), bytes.len(), moment) };
        unsafe { flash_fs_close(fs, fd) };
        checked(wrote)
    }
    /// Writes bytes at an offset of a file, which is made where it is not there, and returns what is reported of it then.
    pub fn write_at(self: Pin<&mut Self>, path: &str, bytes: &[u8], offset: i64, moment: u64) -> Result<Info, i64> {
        let (fs, path, mut info) = (self.fs(), CString::new(path).map_err(|_| EINVAL)?, Info::default());
        let fd = checked(unsafe { flash_fs_open(fs, path.as_ptr(), WRITE | CREATE, moment) }.into())? as c_int;
        let wrote = checked(unsafe { flash_fs_pwrite(fs, fd, bytes.as_ptr().cast(), bytes.len(), offset, moment) });
        let filled = checked(unsafe { flash_fs_fstat(fs, fd, &mut info) }.into());
        unsafe { flash_fs_close(fs, fd) };
        wrote.and(filled).map(|_| info)
    }
    /// Reads from an offset of a file on, and returns how many bytes came.
    pub fn read_at(self: Pin<&mut Self>, path: &str, buffer: &mut [u8], offset: i64) -> Result<usize, i64> {
        let (fs, path) = (self.fs(), CString::new(path).map_err(|_| EINVAL)?);
        let fd = checked(unsafe { flash_fs_open(fs, path.as_ptr(), READ, 0) }.into())? as c_int;
        let count = unsafe { flash_fs_pread(fs, fd, buffer.as_mut_ptr().cast(), buffer.len(), offset) };
        unsafe { flash_fs_close(fs, fd) };
        checked(count).map(|count| count as usize)
    }
    pub fn list(self: Pin<&mut Self>, path: &str) -> Result<Vec<String>, i64> {
        let (fs, path, mut buffer) = (self.fs(), CString::new(path).map_err(|_| EINVAL)?, vec![0u8; 65536]);
        let size = checked(unsafe { flash_fs_list(fs, path.as_ptr(), buffer.as_mut_ptr().cast(), buffer.len()) })?;
        let names = buffer[..size as usize].split(|byte| *byte == 0).filter(|name| !name.is_empty());
        Ok(names.map(|name| String::from_utf8_lossy(name).into_owned()).collect())
    }
}

impl<N: Nand> Drop for Volume<N> {
    fn drop(&mut self) {
        unsafe { flash_fs_abandon(&raw mut self.fs) }
    }
}
