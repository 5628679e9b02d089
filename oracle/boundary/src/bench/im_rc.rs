//! im-rc's vectors, in a shared library that is loaded where it is named.

use super::row::{Row, Work};
use super::runner::Runner;
use frames::grown::element;
use std::ffi::{c_char, c_int, c_void, CString};
use std::mem::transmute;

type Make = unsafe extern "C" fn(usize, *const u32, usize) -> *mut c_void;
type Unmake = unsafe extern "C" fn(*mut c_void);
type Sum = unsafe extern "C" fn(*const c_void, u64) -> u64;
type Run = unsafe extern "C" fn(*mut c_void, u32, *const [u32; 2], usize) -> u64;

extern "C" {
    fn dlopen(path: *const c_char, flags: c_int) -> *mut c_void;
    fn dlsym(library: *mut c_void, name: *const c_char) -> *mut c_void;
}

const RESOLVED_AT_ONCE: c_int = 2;

/// The functions of `oracle/im_rc`.
#[derive(Clone, Copy)]
pub struct Library {
    make: Make,
    unmake: Unmake,
    sum: Sum,
    run: Run,
}

impl Library {
    /// Stays loaded. Nothing where there is no such library.
    pub fn load(path: &str) -> Option<Library> {
        let path = CString::new(path).ok()?;
        // SAFETY: the path is a C string
        let library = unsafe { dlopen(path.as_ptr(), RESOLVED_AT_ONCE) };
        if library.is_null() {
            return None;
        }
        let found = |name: &str| {
            let name = CString::new(name).ok()?;
            // SAFETY: the library is loaded, and the name is a C string
            let address = unsafe { dlsym(library, name.as_ptr()) };
            (!address.is_null()).then_some(address)
        };
        // SAFETY: functions of these names have these types
        unsafe {
            Some(Library {
                make: transmute::<*mut c_void, Make>(found("im_rc_make")?),
                unmake: transmute::<*mut c_void, Unmake>(found("im_rc_unmake")?),
                sum: transmute::<*mut c_void, Sum>(found("im_rc_sum")?),
                run: transmute::<*mut c_void, Run>(found("im_rc_run")?),
            })
        }
    }
}

pub struct ImRc {
    row: Row,
    library: Library,
    elements: Vec<u32>,
    picks: Vec<[u32; 2]>,
    lists: *mut c_void,
    read: u64,
}

impl ImRc {
    /// Nothing where it has no such call, or no library is named.
    pub fn new(row: Row, library: Option<Library>) -> Option<ImRc> {
        let library = library.filter(|_| !row.is_by_call())?;
        let length = match row.work {
            Work::Push => 0,
            _ => row.length(),
        };
        let elements: Vec<u32> = (0..length).map(element).collect();
        let mut picks: Vec<[u32; 2]> = row.picks().into_iter().map(<[u32; 2]>::from).collect();
        if row.work == Work::Compare {
            picks.truncate(row.compares() as usize);
        }
        let lists = library.made(row, &elements);
        Some(ImRc {
            row,
            library,
            elements,
            picks,
            lists,
            read: 0,
        })
    }
}

impl Library {
    fn made(&self, row: Row, elements: &[u32]) -> *mut c_void {
        let count = if row.work == Work::Compare { 2 } else { 1 };
        // SAFETY: the slice is the caller's
        unsafe { (self.make)(count, elements.as_ptr(), elements.len()) }
    }
}

impl Runner for ImRc {
    fn prepare(&mut self) {
        if self.row.edits() {
            // SAFETY: the lists are the library's, and are made anew
            unsafe { (self.library.unmake)(self.lists) };
            self.lists = self.library.made(self.row, &self.elements);
        }
    }

    fn run(&mut self) {
        let work = match self.row.work {
            Work::Forward => 0,
            Work::Backward => 1,
            Work::GetsInOrder => 2,
            Work::GetsAtRandom => 3,
            Work::Push => 4,
            Work::Set => 5,
            Work::Drop => 6,
            Work::Release => 7,
            Work::Compare => 8,
            Work::Form | Work::Audit => unreachable!("it has no such call"),
        };
        let (picks, count) = (self.picks.as_ptr(), self.picks.len());
        // SAFETY: the lists are the library's, and the slice is ours
        self.read = unsafe { (self.library.run)(self.lists, work, picks, count) };
    }

    fn sum(&self) -> u64 {
        // SAFETY: the lists are the library's
        unsafe { (self.library.sum)(self.lists, self.read) }
    }
}

impl Drop for ImRc {
    fn drop(&mut self) {
        // SAFETY: no call follows
        unsafe { (self.library.unmake)(self.lists) };
    }
}
