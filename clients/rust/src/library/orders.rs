//! What `pansuyog.h` has besides: a device's sectors are given, and orders are taken.
use super::calls::{OF_ORDERS, Raw};
use super::{Answer, Library, answer};
use crate::device::Sector;
use crate::shape::Shape;
use std::ffi::c_void;

unsafe extern "C" {
    fn pansuyog_begin(volume: *mut Raw, sectors: u32) -> i32;
    fn pansuyog_give(volume: *mut Raw, first: u32, bytes: *const c_void, length: usize) -> i32;
    fn pansuyog_format_with(volume: *mut Raw, segments: u32, version: u32, segment_sectors: u32, unit: u32, room: u32) -> i32;
    fn pansuyog_mount(volume: *mut Raw, room: u32) -> i32;
    fn pansuyog_carried(volume: *mut Raw) -> u64;
    fn pansuyog_told(volume: *mut Raw) -> u64;
    fn pansuyog_run(volume: *mut Raw, number: u64, first: *mut u32, sectors: *mut c_void, count: usize) -> i32;
    fn pansuyog_done(volume: *mut Raw) -> i32;
}

/// A volume of the library with orders.
pub struct OrderLibrary(Library);

impl OrderLibrary {
    pub fn new() -> Answer<OrderLibrary> {
        Library::new(&OF_ORDERS).map(OrderLibrary)
    }

    /// The volume with the calls that both libraries have.
    pub fn volume(&mut self) -> &mut Library {
        &mut self.0
    }

    fn raw(&mut self) -> &mut Raw {
        &mut self.0.raw
    }

    pub fn begin(&mut self, sectors: u32) -> Answer<u32> {
        // SAFETY: the call takes any number.
        answer(unsafe { pansuyog_begin(self.raw(), sectors) })
    }

    pub fn give(&mut self, first: u32, sectors: &[Sector]) -> Answer<u32> {
        let bytes = sectors.as_flattened();
        // SAFETY: the pointer has the length that is passed with it.
        answer(unsafe { pansuyog_give(self.raw(), first, bytes.as_ptr().cast(), bytes.len()) })
    }

    pub fn format(&mut self, it: Shape, room: u32) -> Answer<u32> {
        // SAFETY: the call takes any numbers.
        answer(unsafe { pansuyog_format_with(self.raw(), it.segments, it.version as u32, it.segment_sectors, it.unit, room) })
    }

    pub fn mount(&mut self, room: u32) -> Answer<u32> {
        // SAFETY: the call takes any number.
        answer(unsafe { pansuyog_mount(self.raw(), room) })
    }

    pub fn carried(&mut self) -> u64 {
        // SAFETY: the call takes the volume alone, mounted or not.
        unsafe { pansuyog_carried(self.raw()) }
    }

    pub fn told(&mut self) -> u64 {
        // SAFETY: the call takes the volume alone, mounted or not.
        unsafe { pansuyog_told(self.raw()) }
    }

    /// The writes to sectors that follow one another from this order on, as many as there is room for: the first sector, and how many.
    /// None for a sync.
    pub fn run(&mut self, number: u64, sectors: &mut [Sector]) -> Answer<(u32, usize)> {
        let mut first = 0;
        // SAFETY: there is room for so many sectors of 512 bytes as the count says.
        let code = unsafe { pansuyog_run(self.raw(), number, &mut first, sectors.as_mut_ptr().cast(), sectors.len()) };
        Ok((first, answer(code)? as usize))
    }

    pub fn done(&mut self) -> Answer<u32> {
        // SAFETY: the call takes the volume alone, mounted or not.
        answer(unsafe { pansuyog_done(self.raw()) })
    }
}
