//! What both headers declare: the types, and the calls that a volume has in either library.
/// The calls of `libpansuyog_file.a`, which are done once they return.
pub use of_file::CALLS as OF_FILE;

/// The calls of `libpansuyog.a`, whose writes and syncs wait as orders.
pub use of_orders::CALLS as OF_ORDERS;

use std::ffi::c_void;

/// `pansuyog`, and `pansuyog_file` of the other header.
#[repr(C)]
pub struct Raw {
    pub inside: *mut c_void,
}

/// `pansuyog_stat_t`.
#[repr(C)]
#[derive(Default)]
pub struct RawStat {
    pub size: u64,
    pub number: u32,
    pub kind: u32,
    pub links: u32,
}

/// `pansuyog_space_t`.
#[repr(C)]
#[derive(Default)]
pub struct RawSpace {
    pub data_blocks: u64,
    pub meta_blocks: u64,
    pub need: u64,
    pub limit: u64,
}

/// `pansuyog_shape_t`.
#[repr(C)]
#[derive(Default)]
pub struct RawShape {
    pub segments: u32,
    pub version: u32,
    pub segment_sectors: u32,
    pub unit: u32,
}

/// `pansuyog_entry_t`.
#[repr(C)]
#[derive(Default)]
pub struct RawEntry {
    pub number: u32,
    pub kind: u32,
}

pub type Plain = unsafe extern "C" fn(*mut Raw) -> i32;
pub type OfPath = unsafe extern "C" fn(*mut Raw, *const u8, usize) -> i32;
pub type OfPaths = unsafe extern "C" fn(*mut Raw, *const u8, usize, *const u8, usize) -> i32;
pub type OfStatus = unsafe extern "C" fn(*mut Raw, *const u8, usize, *mut RawStat) -> i32;

/// Declares calls in each library, whose names begin with `pansuyog_` in one, and with `pansuyog_file_` in the other.
macro_rules! declare {
    ($($call:ident($($argument:ident: $kind:ty),*);)*) => {
        /// The calls of a library.
        pub struct Calls {
            pub free: unsafe extern "C" fn(Raw),
            $(pub $call: unsafe extern "C" fn(*mut Raw $(, $kind)*) -> i32,)*
        }

        mod of_orders {
            use super::*;

            unsafe extern "C" {
                #[link_name = "pansuyog_free"]
                fn free(volume: Raw);
                $(#[link_name = concat!("pansuyog_", stringify!($call))]
                fn $call(volume: *mut Raw $(, $argument: $kind)*) -> i32;)*
            }

            pub static CALLS: Calls = Calls { free, $($call),* };
        }

        mod of_file {
            use super::*;

            unsafe extern "C" {
                #[link_name = "pansuyog_file_free"]
                fn free(volume: Raw);
                $(#[link_name = concat!("pansuyog_file_", stringify!($call))]
                fn $call(volume: *mut Raw $(, $argument: $kind)*) -> i32;)*
            }

            pub static CALLS: Calls = Calls { free, $($call),* };
        }
    };
}

declare! {
    new();
    open(path: *const u8, length: usize);
    create(path: *const u8, length: usize);
    close(handle: u32);
    pread(handle: u32, offset: u64, bytes: *mut c_void, length: usize);
    pwrite(handle: u32, offset: u64, bytes: *const c_void, length: usize);
    truncate(handle: u32, size: u64);
    mkdir(path: *const u8, length: usize);
    rmdir(path: *const u8, length: usize);
    unlink(path: *const u8, length: usize);
    link(from: *const u8, from_length: usize, to: *const u8, to_length: usize);
    rename(from: *const u8, from_length: usize, to: *const u8, to_length: usize);
    symlink(text: *const u8, text_length: usize, path: *const u8, length: usize);
    readlink(path: *const u8, length: usize, text: *mut c_void, room: usize);
    stat(path: *const u8, length: usize, stat: *mut RawStat);
    lstat(path: *const u8, length: usize, stat: *mut RawStat);
    list(path: *const u8, length: usize);
    entry(place: usize, entry: *mut RawEntry, name: *mut c_void, room: usize);
    fsync(handle: u32);
    sync();
    clean();
    is_cleaning_due();
    clean_once();
    space(space: *mut RawSpace);
    shape(shape: *mut RawShape);
    version();
    upgrade();
    widen(path: *const u8, length: usize);
    record_begin(bytes: u32, files: u32);
    record_line(day: *const u8, line: *const u8, length: usize);
    record_save();
}
