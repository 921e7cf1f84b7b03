//! Stand-in for the operating system's descriptors: a book of 1,024 numbers, and the descriptor types of std over it.
//! A number that is asked for is the lowest that is not open.
use std::cell::RefCell;
use std::io::{Error, Result};
use std::marker::PhantomData;

const NUMBERS: usize = 1024;

/// The code of "bad file descriptor".
const EBADF: i32 = 9;
/// The code of "too many open files".
pub const EMFILE: i32 = 24;

thread_local! {
    /// The mark of the file that each number stands for.
    static FILES: RefCell<[Option<u64>; NUMBERS]> = const { RefCell::new([None; NUMBERS]) };
}

pub fn open(mark: u64) -> Result<RawFd> {
    FILES.with_borrow_mut(|files| match files.iter().position(Option::is_none) {
        Some(number) => {
            files[number] = Some(mark);
            Ok(number as RawFd)
        }
        None => Err(Error::from_raw_os_error(EMFILE)),
    })
}

pub fn mark(fd: RawFd) -> Option<u64> {
    let number = usize::try_from(fd).ok()?;
    FILES.with_borrow(|files| files.get(number).copied().flatten())
}

/// Whether the number was open.
pub fn close(fd: RawFd) -> bool {
    let open = mark(fd).is_some();
    if open {
        FILES.with_borrow_mut(|files| files[fd as usize] = None);
    }
    open
}

pub type RawFd = i32;

pub trait AsRawFd {
    fn as_raw_fd(&self) -> RawFd;
}

impl AsRawFd for RawFd {
    fn as_raw_fd(&self) -> RawFd {
        *self
    }
}

/// A duplicate: it is closed where it is dropped.
#[derive(Debug)]
pub struct OwnedFd(pub RawFd);

impl AsRawFd for OwnedFd {
    fn as_raw_fd(&self) -> RawFd {
        self.0
    }
}

impl Drop for OwnedFd {
    fn drop(&mut self) {
        close(self.0);
    }
}

pub struct BorrowedFd<'a>(RawFd, PhantomData<&'a ()>);

impl BorrowedFd<'_> {
    /// # Safety
    /// A number that is not open is answered by an error here.
    pub unsafe fn borrow_raw(fd: RawFd) -> Self {
        BorrowedFd(fd, PhantomData)
    }

    pub fn try_clone_to_owned(&self) -> Result<OwnedFd> {
        match mark(self.0) {
            Some(file) => open(file).map(OwnedFd),
            None => Err(Error::from_raw_os_error(EBADF)),
        }
    }
}
