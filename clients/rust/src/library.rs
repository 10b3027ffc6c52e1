//! The functions of `pansuyog.h` and `pansuyog_file.h` that a volume needs, as safe ones. All unsafe code of the crate stands here and in
//! the modules below.
//!
//! What they rest on, beside a comment at each: the declarations are those of the headers. A `Library` is begun by `pansuyog_new` or
//! `pansuyog_file_new`, and makes the calls of that library alone. It is lent to one call at a time, since each takes `&mut self`; where it
//! is moved, the place before isn't used any more. The pointer of a slice isn't null, also where its length is 0. While a call has a slice
//! nobody else writes it, and one that is written overlaps no other.
mod calls;
mod file;
mod orders;

pub use file::{Access, FileLibrary, shape_sectors};
pub use orders::OrderLibrary;

use crate::shape::{Shape, Version};
use crate::volume::{Entry, Kind, Space, Stat};
use calls::{Calls, OfPath, OfPaths, OfStatus, Plain, Raw, RawEntry, RawShape, RawSpace, RawStat};
use std::ptr;

/// The number of a call that was refused, as the headers have it.
#[derive(Clone, Copy, Debug, PartialEq, Eq)]
pub struct Refused(pub i32);

pub type Answer<T> = std::result::Result<T, Refused>;

/// The number that a call answered, from 0 on, or its refusal.
fn answer(code: i32) -> Answer<u32> {
    u32::try_from(code).map_err(|_| Refused(code))
}

/// The longest name of an entry.
const NAME: usize = 123;

/// The longest text of a link.
const TEXT: usize = 1_023;

/// The bytes of a day.
const DAY: usize = 10;

const INVAL: Refused = Refused(-6);

/// A volume in the memory of one of the libraries, with the calls that both have.
pub struct Library {
    raw: Raw,
    calls: &'static Calls,
}

// SAFETY: what is behind the pointer belongs to this value alone, and has nothing of a thread: it lies in memory of malloc, which any
// thread may free, and a descriptor in it is of the whole program.
unsafe impl Send for Library {}

impl Drop for Library {
    fn drop(&mut self) {
        let raw = Raw { inside: self.raw.inside };
        // SAFETY: the library's own call to begin a volume gave it, and it is freed here alone, once.
        unsafe { (self.calls.free)(raw) }
    }
}

impl Library {
    /// A volume that holds nothing.
    fn new(calls: &'static Calls) -> Answer<Library> {
        let mut raw = Raw { inside: ptr::null_mut() };
        // SAFETY: the call puts a pointer into the place that it is lent. Where it is refused no `Library` is made, so nothing is freed.
        answer(unsafe { (calls.new)(&mut raw) })?;
        Ok(Library { raw, calls })
    }

    /// Makes a call that takes the volume alone.
    fn plain(&mut self, call: Plain) -> Answer<u32> {
        // SAFETY: the functions that are passed below are this library's, and take nothing else.
        answer(unsafe { call(&mut self.raw) })
    }

    /// Makes a call that takes a path, which may be any bytes.
    fn of_path(&mut self, call: OfPath, path: &[u8]) -> Answer<u32> {
        // SAFETY: the pointer has the length that is passed with it, and the function is this library's.
        answer(unsafe { call(&mut self.raw, path.as_ptr(), path.len()) })
    }

    /// Makes a call that takes two paths, or a text and a path.
    fn of_paths(&mut self, call: OfPaths, first: &[u8], second: &[u8]) -> Answer<u32> {
        // Two shared borrows may be of the same bytes, and the headers want arguments that don't overlap.
        let second = second.to_vec();
        // SAFETY: each pointer has the length that is passed with it, and the function is this library's.
        answer(unsafe { call(&mut self.raw, first.as_ptr(), first.len(), second.as_ptr(), second.len()) })
    }

    fn of_status(&mut self, call: OfStatus, path: &[u8]) -> Answer<Stat> {
        let mut stat = RawStat::default();
        // SAFETY: the pointer has the length that is passed with it, the status is a place of its type, and the function is this library's.
        answer(unsafe { call(&mut self.raw, path.as_ptr(), path.len(), &mut stat) })?;
        Ok(Stat {
            size: stat.size,
            number: stat.number,
            kind: Kind::of(stat.kind),
            links: stat.links,
        })
    }

    pub fn open(&mut self, path: &[u8]) -> Answer<u32> {
        self.of_path(self.calls.open, path)
    }

    pub fn create(&mut self, path: &[u8]) -> Answer<u32> {
        self.of_path(self.calls.create, path)
    }

    pub fn close(&mut self, handle: u32) -> Answer<u32> {
        // SAFETY: the call takes any number.
        answer(unsafe { (self.calls.close)(&mut self.raw, handle) })
    }

    pub fn pread(&mut self, handle: u32, offset: u64, bytes: &mut [u8]) -> Answer<u32> {
        // SAFETY: the pointer has the length that is passed with it.
        answer(unsafe { (self.calls.pread)(&mut self.raw, handle, offset, bytes.as_mut_ptr().cast(), bytes.len()) })
    }

    pub fn pwrite(&mut self, handle: u32, offset: u64, bytes: &[u8]) -> Answer<u32> {
        // SAFETY: the pointer has the length that is passed with it.
        answer(unsafe { (self.calls.pwrite)(&mut self.raw, handle, offset, bytes.as_ptr().cast(), bytes.len()) })
    }

    pub fn truncate(&mut self, handle: u32, size: u64) -> Answer<u32> {
        // SAFETY: the call takes any numbers.
        answer(unsafe { (self.calls.truncate)(&mut self.raw, handle, size) })
    }

    pub fn mkdir(&mut self, path: &[u8]) -> Answer<u32> {
        self.of_path(self.calls.mkdir, path)
    }

    pub fn rmdir(&mut self, path: &[u8]) -> Answer<u32> {
        self.of_path(self.calls.rmdir, path)
    }

    pub fn unlink(&mut self, path: &[u8]) -> Answer<u32> {
        self.of_path(self.calls.unlink, path)
    }

    pub fn link(&mut self, from: &[u8], to: &[u8]) -> Answer<u32> {
        self.of_paths(self.calls.link, from, to)
    }

    pub fn rename(&mut self, from: &[u8], to: &[u8]) -> Answer<u32> {
        self.of_paths(self.calls.rename, from, to)
    }

    pub fn symlink(&mut self, text: &[u8], path: &[u8]) -> Answer<u32> {
        self.of_paths(self.calls.symlink, text, path)
    }

    pub fn readlink(&mut self, path: &[u8]) -> Answer<Vec<u8>> {
        let mut text = vec![0; TEXT];
        // SAFETY: each pointer has the length that is passed with it.
        let code = unsafe { (self.calls.readlink)(&mut self.raw, path.as_ptr(), path.len(), text.as_mut_ptr().cast(), text.len()) };
        text.truncate(answer(code)? as usize);
        Ok(text)
    }

    pub fn stat(&mut self, path: &[u8]) -> Answer<Stat> {
        self.of_status(self.calls.stat, path)
    }

    pub fn lstat(&mut self, path: &[u8]) -> Answer<Stat> {
        self.of_status(self.calls.lstat, path)
    }

    pub fn list(&mut self, path: &[u8]) -> Answer<u32> {
        self.of_path(self.calls.list, path)
    }

    /// The entry at this place of the directory that was listed last.
    pub fn entry(&mut self, place: usize) -> Answer<Entry> {
        let mut entry = RawEntry::default();
        let mut name = vec![0; NAME];
        // SAFETY: the entry is a place of its type, and the name's pointer has the length that is passed with it.
        let code = unsafe { (self.calls.entry)(&mut self.raw, place, &mut entry, name.as_mut_ptr().cast(), name.len()) };
        name.truncate(answer(code)? as usize);
        Ok(Entry {
            name,
            number: entry.number,
            kind: Kind::of(entry.kind),
        })
    }

    pub fn fsync(&mut self, handle: u32) -> Answer<u32> {
        // SAFETY: the call takes any number.
        answer(unsafe { (self.calls.fsync)(&mut self.raw, handle) })
    }

    pub fn sync(&mut self) -> Answer<u32> {
        self.plain(self.calls.sync)
    }

    pub fn clean(&mut self) -> Answer<u32> {
        self.plain(self.calls.clean)
    }

    pub fn is_cleaning_due(&mut self) -> Answer<u32> {
        self.plain(self.calls.is_cleaning_due)
    }

    pub fn clean_once(&mut self) -> Answer<u32> {
        self.plain(self.calls.clean_once)
    }

    pub fn space(&mut self) -> Answer<Space> {
        let mut space = RawSpace::default();
        // SAFETY: the space is a place of its type.
        answer(unsafe { (self.calls.space)(&mut self.raw, &mut space) })?;
        Ok(Space {
            data_blocks: space.data_blocks,
            meta_blocks: space.meta_blocks,
            need: space.need,
            limit: space.limit,
        })
    }

    pub fn shape(&mut self) -> Answer<Shape> {
        let mut shape = RawShape::default();
        // SAFETY: the shape is a place of its type.
        answer(unsafe { (self.calls.shape)(&mut self.raw, &mut shape) })?;
        Ok(Shape {
            segments: shape.segments,
            version: Version::of(shape.version),
            segment_sectors: shape.segment_sectors,
            unit: shape.unit,
        })
    }

    pub fn version(&mut self) -> Answer<u32> {
        self.plain(self.calls.version)
    }

    pub fn upgrade(&mut self) -> Answer<u32> {
        self.plain(self.calls.upgrade)
    }

    pub fn widen(&mut self, path: &[u8]) -> Answer<u32> {
        self.of_path(self.calls.widen, path)
    }

    pub fn record_begin(&mut self, bytes: u32, files: u32) -> Answer<u32> {
        // SAFETY: the call takes any numbers.
        answer(unsafe { (self.calls.record_begin)(&mut self.raw, bytes, files) })
    }

    pub fn record_line(&mut self, day: &[u8], line: &[u8]) -> Answer<u32> {
        // A copy, since the headers want arguments that don't overlap.
        let day: [u8; DAY] = day.try_into().map_err(|_| INVAL)?;
        // SAFETY: the day has ten bytes, and the line's pointer has the length that is passed with it.
        answer(unsafe { (self.calls.record_line)(&mut self.raw, day.as_ptr(), line.as_ptr(), line.len()) })
    }

    pub fn record_save(&mut self) -> Answer<u32> {
        self.plain(self.calls.record_save)
    }
}
