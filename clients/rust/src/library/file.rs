//! What `pansuyog_file.h` has besides: an open file is taken.
use super::calls::{OF_FILE, Raw};
use super::{Answer, Library, Refused, answer};
use crate::shape::Shape;
use std::ffi::{c_int, c_void};
use std::fs::File;
use std::os::fd::IntoRawFd;

unsafe extern "C" {
    fn pansuyog_file_take(volume: *mut Raw, descriptor: *mut c_int, flags: u32) -> i32;
    fn pansuyog_file_errno(volume: *mut Raw) -> i32;
    fn pansuyog_file_format_with(volume: *mut Raw, segments: u32, version: u32, segment_sectors: u32, unit: u32) -> i32;
    safe fn pansuyog_file_shape_sectors(segments: u32, version: u32, segment_sectors: u32, unit: u32) -> u32;
    fn pansuyog_file_mount(volume: *mut Raw) -> i32;
    fn malloc(size: usize) -> *mut c_void;
}

/// How many sectors a volume of a shape takes: 0 where there is none of it.
pub fn shape_sectors(it: Shape) -> u32 {
    pansuyog_file_shape_sectors(it.segments, it.version as u32, it.segment_sectors, it.unit)
}

const NO_MEMORY: Refused = Refused(-18);

/// What calls may do to a volume: the flags of `pansuyog_file_take`.
#[derive(Clone, Copy, Debug, PartialEq, Eq)]
pub enum Access {
    /// All of them.
    ReadWrite = 0,
    /// Those that don't write. Any other is refused.
    ReadOnly = 1,
}

/// A volume of the library over a file.
pub struct FileLibrary(Library);

impl FileLibrary {
    pub fn new() -> Answer<FileLibrary> {
        Library::new(&OF_FILE).map(FileLibrary)
    }

    /// The volume with the calls that both libraries have.
    pub fn volume(&mut self) -> &mut Library {
        &mut self.0
    }

    fn raw(&mut self) -> &mut Raw {
        &mut self.0.raw
    }

    /// Takes a file, and locks it. It is closed with the volume, and where it isn't taken.
    pub fn take(&mut self, file: File, access: Access) -> Answer<u32> {
        // SAFETY: malloc takes any size.
        let descriptor: *mut c_int = unsafe { malloc(size_of::<c_int>()) }.cast();
        if descriptor.is_null() {
            return Err(NO_MEMORY);
        }
        // SAFETY: the block has room for a descriptor, and is aligned for it.
        unsafe { descriptor.write(file.into_raw_fd()) };
        // SAFETY: the block is of malloc, and holds an open descriptor. Nobody else has either, and both are the library's from here on.
        answer(unsafe { pansuyog_file_take(self.raw(), descriptor, access as u32) })
    }

    /// The system's number of the newest call of the file that failed. 0 where none did, or where the system gave none.
    pub fn errno(&mut self) -> i32 {
        // SAFETY: the call takes the volume alone, mounted or not.
        unsafe { pansuyog_file_errno(self.raw()) }
    }

    pub fn format(&mut self, it: Shape) -> Answer<u32> {
        // SAFETY: the call takes any numbers.
        answer(unsafe { pansuyog_file_format_with(self.raw(), it.segments, it.version as u32, it.segment_sectors, it.unit) })
    }

    pub fn mount(&mut self) -> Answer<u32> {
        // SAFETY: the call takes the volume alone, mounted or not.
        answer(unsafe { pansuyog_file_mount(self.raw()) })
    }
}
