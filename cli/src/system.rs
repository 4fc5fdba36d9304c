//! The few functions of the C library that the standard library does not have at the Rust version that this program asks for (x86-64 Linux,
//! as the archive).

use std::fs::File;
use std::io::{Error, ErrorKind, Write};
use std::os::raw::{c_int, c_uint};
use std::os::unix::io::AsRawFd;
use std::sync::atomic::{compiler_fence, Ordering};

extern "C" {
    fn signal(number: c_int, handler: usize) -> usize;
    fn flock(file: c_int, operation: c_int) -> c_int;
    fn isatty(file: c_int) -> c_int;
    fn fallocate(file: c_int, mode: c_int, start: i64, size: i64) -> c_int;
    fn syncfs(file: c_int) -> c_int;
    fn getrandom(bytes: *mut u8, length: usize, flags: c_uint) -> isize;
}

/// For opening: a named pipe is opened without waiting for somebody who writes.
pub const O_NONBLOCK: c_int = 0o4000;
/// For opening: a link is not followed.
pub const O_NOFOLLOW: c_int = 0o400_000;

const SIGPIPE: c_int = 13;
const SIG_DFL: usize = 0;
const LOCK_EX: c_int = 2;
const LOCK_NB: c_int = 4;
const EWOULDBLOCK: i32 = 11;
const ENOSYS: i32 = 38;
const EOPNOTSUPP: i32 = 95;

/// A closed pipe ends this program silently, as it ends other programs.
pub fn end_at_a_closed_pipe() {
    unsafe { signal(SIGPIPE, SIG_DFL) };
}

/// Whether standard error is a terminal.
pub fn stderr_is_a_terminal() -> bool {
    unsafe { isatty(2) == 1 }
}

/// Locks an open file or folder against other runs until it is closed. False where another run has it; a file system that has no locks
/// counts as locked, and what protects a folder there is that renaming replaces no folder that holds a file.
pub fn try_lock(file: &File) -> bool {
    let locked = unsafe { flock(file.as_raw_fd(), LOCK_EX | LOCK_NB) } == 0;
    locked || Error::last_os_error().raw_os_error() != Some(EWOULDBLOCK)
}

/// Has the file system set so many bytes aside for a new file; fails where it has not so many. Where it cannot do that, a few bytes are written.
pub fn reserve(mut file: &File, bytes: u64) -> Result<(), Error> {
    let size = i64::try_from(bytes).unwrap_or(i64::MAX);
    if unsafe { fallocate(file.as_raw_fd(), 0, 0, size) } == 0 {
        return Ok(());
    }
    let e = Error::last_os_error();
    match e.raw_os_error() {
        Some(ENOSYS | EOPNOTSUPP) => file.write_all(&[0; 4096]),
        _ => Err(e),
    }
}

/// Has everything that was written to the file system of this file or folder on the disk. False where the system has no such call.
pub fn sync_all_files(file: &File) -> Result<bool, Error> {
    if unsafe { syncfs(file.as_raw_fd()) } == 0 {
        return Ok(true);
    }
    let e = Error::last_os_error();
    match e.raw_os_error() {
        Some(ENOSYS) => Ok(false),
        _ => Err(e),
    }
}

/// Zeros in place of these bytes, by writes that the compiler may not leave out though nothing reads them.
pub fn overwrite(bytes: &mut [u8]) {
    for byte in bytes {
        unsafe { std::ptr::write_volatile(byte, 0) };
    }
    compiler_fence(Ordering::SeqCst);
}

/// Fills the bytes from the system's source of randomness, and waits until it has been started.
pub fn random(bytes: &mut [u8]) -> Result<(), Error> {
    let mut filled = 0;
    while filled < bytes.len() {
        let rest = &mut bytes[filled..];
        let drawn = unsafe { getrandom(rest.as_mut_ptr(), rest.len(), 0) };
        match usize::try_from(drawn) {
            Ok(0) => return Err(ErrorKind::UnexpectedEof.into()),
            Ok(drawn) => filled += drawn,
            Err(_) if Error::last_os_error().kind() == ErrorKind::Interrupted => (),
            Err(_) => return Err(Error::last_os_error()),
        }
    }
    Ok(())
}
