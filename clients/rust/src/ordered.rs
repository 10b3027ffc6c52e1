//! Volumes over devices of a program's own: each call carries out the orders that it gives.
use crate::backend::Mounted;
use crate::device::{Device, SECTOR, Sector};
use crate::error::Error;
use crate::library::{Answer, Library, OrderLibrary};
use crate::shape::Shape;

type Result<T> = std::result::Result<T, Error>;

/// The sectors of a volume of 1,024 segments in version 3: what a larger device has behind them isn't read.
const MOST_SECTORS: u32 = 65_792;

/// The sectors of one read or write.
const RUN: usize = 128;

const SEGMENT_SECTORS: u32 = 64;

/// A volume of the library with orders, and its device.
pub struct OverDevice<D> {
    library: OrderLibrary,
    pub device: D,
    /// The sectors that are under way.
    run: Vec<Sector>,
    is_halted: bool,
}

/// Memory for so many orders is taken as a volume is mounted: those of a pass of the cleaner and of a commit behind it.
fn room_of(sectors: u32) -> u32 {
    8 * (sectors / SEGMENT_SECTORS) + 520
}

impl<D: Device> OverDevice<D> {
    pub fn format(device: D, shape: Shape) -> Result<OverDevice<D>> {
        let (mut volume, room) = OverDevice::begin(device)?;
        volume.carrying(|library| library.format(shape, room))?;
        volume.mounted(room)
    }

    pub fn mount(device: D) -> Result<OverDevice<D>> {
        let (volume, room) = OverDevice::begin(device)?;
        volume.mounted(room)
    }

    /// A volume to whose library all of a device was given that could be read, and the room for its orders.
    fn begin(mut device: D) -> Result<(OverDevice<D>, u32)> {
        device.sync().map_err(Error::Sync)?;
        let sectors = u32::try_from(device.sectors()?).unwrap_or(u32::MAX).min(MOST_SECTORS);
        let mut volume = OverDevice {
            library: OrderLibrary::new().map_err(Error::of)?,
            device,
            run: vec![[0; SECTOR]; RUN],
            is_halted: false,
        };
        volume.library.begin(sectors).map_err(Error::of)?;
        for first in (0..sectors).step_by(RUN) {
            volume.give(first, sectors)?;
        }
        Ok((volume, room_of(sectors)))
    }

    /// Gives the sectors of one read. Where it fails each of them is read alone, and one that can't be read isn't given.
    fn give(&mut self, first: u32, sectors: u32) -> Result<()> {
        let count = RUN.min((sectors - first) as usize);
        let run = &mut self.run[..count];
        if self.device.read(first, run).is_ok() {
            self.library.give(first, run).map_err(Error::of)?;
            return Ok(());
        }
        for (sector, place) in (first..).zip(run.chunks_mut(1)) {
            if self.device.read(sector, place).is_ok() {
                self.library.give(sector, place).map_err(Error::of)?;
            }
        }
        Ok(())
    }

    fn mounted(mut self, room: u32) -> Result<OverDevice<D>> {
        self.carrying(|library| library.mount(room))?;
        Ok(self)
    }

    /// Makes a call.
    fn calling<T>(&mut self, call: impl FnOnce(&mut OrderLibrary) -> Answer<T>) -> Result<T> {
        if self.is_halted {
            return Err(Error::Halted);
        }
        call(&mut self.library).map_err(Error::of)
    }

    /// Makes a call, and carries out the orders that it gives the device, whatever it answers.
    fn carrying<T>(&mut self, call: impl FnOnce(&mut OrderLibrary) -> Answer<T>) -> Result<T> {
        let answer = self.calling(call);
        if !self.is_halted {
            self.carry()?;
        }
        answer
    }

    /// Carries out all orders that wait. Where the device fails, or panics, no call is taken any more.
    fn carry(&mut self) -> Result<()> {
        let (carried, told) = (self.library.carried(), self.library.told());
        if carried == told {
            return Ok(());
        }
        self.is_halted = true;
        let mut number = carried;
        while number < told {
            number += self.carry_run(number)?;
        }
        self.library.done().map_err(Error::of)?;
        self.is_halted = false;
        Ok(())
    }

    /// Carries out a sync, or writes to sectors that follow one another: how many orders.
    fn carry_run(&mut self, number: u64) -> Result<u64> {
        let (first, count) = self.library.run(number, &mut self.run).map_err(Error::of)?;
        if count == 0 {
            self.device.sync().map_err(Error::Sync)?;
            return Ok(1);
        }
        self.device.write(first, &self.run[..count.min(RUN)]).map_err(Error::Write)?;
        Ok(count as u64)
    }
}

impl<D: Device> Mounted for OverDevice<D> {
    fn look<T>(&mut self, call: impl FnOnce(&mut Library) -> Answer<T>) -> Result<T> {
        self.calling(|library| call(library.volume()))
    }

    fn change<T>(&mut self, call: impl FnOnce(&mut Library) -> Answer<T>) -> Result<T> {
        self.carrying(|library| call(library.volume()))
    }

    fn is_halted(&self) -> bool {
        self.is_halted
    }
}
