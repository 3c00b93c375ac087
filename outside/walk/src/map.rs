//! A file mapped into memory.

use std::ffi::{c_int, c_void, OsStr};
use std::fs::{self, File};
use std::io;
use std::os::fd::AsRawFd;
use std::ptr::null_mut;
use std::slice;

/// As in the C library's <sys/mman.h>, on Linux, macOS and the BSDs.
const PROT_READ: c_int = 1;
const MAP_PRIVATE: c_int = 2;

extern "C" {
    /// An `off_t` is as long as a pointer on 64-bit systems.
    fn mmap(
        address: *mut c_void,
        length: usize,
        protection: c_int,
        flags: c_int,
        file: c_int,
        offset: isize,
    ) -> *mut c_void;
}

/// The bytes of a file, mapped read only for as long as the program runs; or why
/// there are none.
pub fn map(name: &OsStr) -> Result<&'static [u8], String> {
    // A pipe would wait for its writer, so it is not opened.
    let kind = fs::metadata(name).map_err(unreadable)?.file_type();
    if kind.is_dir() {
        return Err("is a folder".to_string());
    }
    if !kind.is_file() {
        return Err("is no regular file, and cannot be mapped".to_string());
    }
    let file = File::open(name).map_err(unreadable)?;
    let length = file.metadata().map_err(unreadable)?.len();
    let length = usize::try_from(length).map_err(|_| "is too long to be mapped".to_string())?;
    if length == 0 {
        return Ok(&[]);
    }
    // SAFETY: a new place is asked for, of which nothing else knows. The result is
    // looked at below.
    let place = unsafe {
        let (protection, fd) = (PROT_READ, file.as_raw_fd());
        mmap(null_mut(), length, protection, MAP_PRIVATE, fd, 0)
    };
    // The failure is told as the highest address.
    if place as usize == usize::MAX {
        return Err(format!("cannot be mapped: {}", io::Error::last_os_error()));
    }
    // SAFETY: so many bytes are mapped there to be read, and stay so: nothing here
    // takes the mapping away. Whoever writes to the file meanwhile may change what
    // is read, and whoever cuts it may end the program by a signal; the help asks for
    // a file that does not change.
    Ok(unsafe { slice::from_raw_parts(place as *const u8, length) })
}

fn unreadable(error: io::Error) -> String {
    format!("cannot be read: {error}")
}
