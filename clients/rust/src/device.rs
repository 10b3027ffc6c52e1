//! Devices of a program's own: what a volume is read from, and what its writes and syncs go to.
use std::io;

/// The bytes of a sector.
pub const SECTOR: usize = 512;

/// A sector of a device.
pub type Sector = [u8; SECTOR];

/// How many sectors a volume of so many segments takes in versions 1 and 2: [`Shape::sectors`](crate::Shape::sectors) tells it of any.
pub const fn sectors_of(segments: u32) -> u64 {
    2 + 64 * segments as u64
}

/// Sectors of 512 bytes, with numbers from 0 on: a device of one's own, as one in memory, over a network, or in a part of a file. A volume
/// in a file or on a block device needs none: [`Volume::mount`](crate::Volume::mount).
///
/// After a [`sync`](Device::sync) that is `Ok` the device keeps all that was written before. When the power goes, a sector that was
/// written since then has its old bytes or its new ones, or can't be read, and no other sector changes. Nobody else writes to the device
/// while a volume is mounted on it.
///
/// ```
/// use pansuyog::{Device, Sector, Version, Volume, sectors_of};
/// use std::io;
///
/// struct InMemory(Vec<Sector>);
///
/// impl Device for InMemory {
///     fn sectors(&mut self) -> io::Result<u64> {
///         Ok(self.0.len() as u64)
///     }
///
///     fn read(&mut self, first: u32, sectors: &mut [Sector]) -> io::Result<()> {
///         sectors.copy_from_slice(&self.0[first as usize..][..sectors.len()]);
///         Ok(())
///     }
///
///     fn write(&mut self, first: u32, sectors: &[Sector]) -> io::Result<()> {
///         self.0[first as usize..][..sectors.len()].copy_from_slice(sectors);
///         Ok(())
///     }
///
///     fn sync(&mut self) -> io::Result<()> {
///         Ok(())
///     }
/// }
///
/// # fn main() -> Result<(), pansuyog::Error> {
/// let device = InMemory(vec![[0; 512]; sectors_of(64) as usize]);
/// let mut volume = Volume::format_over(device, 64, Version::Two)?;
/// volume.mkdir("/logs")?;
/// volume.sync()?;
/// let mut volume = Volume::over(volume.into_device())?;
/// assert_eq!(volume.readdir("/")?[0].name, b"logs");
/// # Ok(())
/// # }
/// ```
pub trait Device {
    /// How many sectors there are.
    fn sectors(&mut self) -> io::Result<u64>;

    /// Reads sectors that follow one another, from `first` on. Where it fails, each of them is tried alone.
    fn read(&mut self, first: u32, sectors: &mut [Sector]) -> io::Result<()>;

    /// Writes sectors that follow one another, from `first` on.
    fn write(&mut self, first: u32, sectors: &[Sector]) -> io::Result<()>;

    /// Keeps all that was written before, through a loss of power too.
    fn sync(&mut self) -> io::Result<()>;
}

impl<D: Device + ?Sized> Device for &mut D {
    fn sectors(&mut self) -> io::Result<u64> {
        (**self).sectors()
    }

    fn read(&mut self, first: u32, sectors: &mut [Sector]) -> io::Result<()> {
        (**self).read(first, sectors)
    }

    fn write(&mut self, first: u32, sectors: &[Sector]) -> io::Result<()> {
        (**self).write(first, sectors)
    }

    fn sync(&mut self) -> io::Result<()> {
        (**self).sync()
    }
}
