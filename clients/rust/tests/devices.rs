//! Volumes over devices of a program's own: what they hold, and how they fail.
mod common;

use common::{MemoryDevice, refusal};
use pansuyog::{Device, Error, Sector, Version, Volume};
use std::io;
use std::panic::{AssertUnwindSafe, catch_unwind};

fn volume(device: &mut MemoryDevice) -> Volume<&mut MemoryDevice> {
    Volume::format_over(device, 64, Version::One).unwrap()
}

#[test]
fn what_is_no_volume_is_not_mounted() {
    let mut device = MemoryDevice::new(64);
    assert_eq!(refusal(Volume::over(&mut device)), "NoCheckpoint");
    for segments in [0, 63, 65, 1032, u32::MAX] {
        assert_eq!(refusal(Volume::format_over(&mut device, segments, Version::Two)), "Inval");
    }
    assert_eq!(refusal(Volume::format_over(&mut device, 72, Version::Two)), "TooSmall");
    device.sectors.pop();
    assert_eq!(refusal(Volume::format_over(&mut device, 64, Version::Two)), "TooSmall");
    device.sectors.clear();
    assert_eq!(refusal(Volume::over(&mut device)), "TooSmall");
}

#[test]
fn a_sector_that_is_not_needed_need_not_be_read() {
    let mut device = MemoryDevice::new(64);
    drop(volume(&mut device));
    device.unreadable = (10..4_000).collect();
    assert!(Volume::over(&mut device).is_ok());
    device.unreadable = [3].into();
    // The root's inode.
    assert_eq!(refusal(Volume::over(&mut device)), "Damaged(4)");
}

/// Appends a record and saves it.
fn append(volume: &mut Volume<&mut MemoryDevice>, number: u64) -> Result<(), Error> {
    let handle = match volume.open("/log") {
        Err(Error::NoEntry) => volume.create("/log")?,
        opened => opened?,
    };
    volume.pwrite(handle, 4 * number, b"one\n")?;
    volume.sync()?;
    volume.close(handle)
}

/// Mounts a volume and appends a record to it. Once the device has failed no call is taken.
fn append_anew(device: &mut MemoryDevice, number: u64) -> Result<(), Error> {
    let mut volume = Volume::over(device)?;
    let saved = append(&mut volume, number);
    if saved.is_err() {
        assert_eq!(refusal(volume.stat("/log")), "Halted");
        assert_eq!(refusal(volume.sync()), "Halted");
    }
    saved
}

#[test]
fn each_call_of_the_device_fails_in_turn() {
    for good_calls in 0.. {
        let mut device = MemoryDevice::new(64);
        append(&mut volume(&mut device), 0).unwrap();
        device.good_calls = good_calls;
        let saved = append_anew(&mut device, 1);
        device.lose_power();
        let size = Volume::over(&mut device).unwrap().stat("/log").unwrap().size;
        if saved.is_ok() {
            assert_eq!(size, 8);
            // Two syncs of the mount, and at least a write and a sync of the blocks and of the checkpoint.
            assert!(good_calls >= 6);
            return;
        }
        assert!(matches!(saved, Err(Error::Write(_) | Error::Sync(_))), "{saved:?}");
        assert!(size == 4 || size == 8);
    }
}

/// The error of a call of the device stays with the refusal, which says what failed and why.
#[test]
fn a_refusal_tells_what_failed_and_why() {
    let mut device = MemoryDevice::new(64);
    drop(volume(&mut device));
    device.good_calls = 1;
    let text = |refused: Result<(), Error>| refused.unwrap_err().to_string();
    assert_eq!(text(append_anew(&mut device, 0)), "a sync failed: the device failed");
    device.lose_power();
    device.good_calls = 3;
    assert_eq!(text(append_anew(&mut device, 0)), "a write failed: the device failed");
    let full = || io::Error::from(io::ErrorKind::StorageFull);
    assert_eq!(Error::Write(full()).to_string(), format!("a write failed: {}", full()));
    assert_eq!(Error::Io(full()).to_string(), full().to_string());
}

/// A device whose writes panic in the place of a failure.
struct Panics<'a>(&'a mut MemoryDevice);

impl Device for Panics<'_> {
    fn sectors(&mut self) -> io::Result<u64> {
        self.0.sectors()
    }

    fn read(&mut self, first: u32, sectors: &mut [Sector]) -> io::Result<()> {
        self.0.read(first, sectors)
    }

    fn write(&mut self, first: u32, sectors: &[Sector]) -> io::Result<()> {
        self.0.write(first, sectors).map_err(|error| panic!("{error}"))
    }

    fn sync(&mut self) -> io::Result<()> {
        self.0.sync()
    }
}

#[test]
fn a_device_that_panics_halts_the_volume() {
    let mut device = MemoryDevice::new(64);
    drop(volume(&mut device));
    device.good_calls = 3;
    let mut volume = Volume::over(Panics(&mut device)).unwrap();
    volume.create("/f").unwrap();
    assert!(catch_unwind(AssertUnwindSafe(|| volume.sync())).is_err());
    assert_eq!(refusal(volume.sync()), "Halted");
    assert_eq!(refusal(volume.stat("/f")), "Halted");
}

/// A device that says that it is larger than any.
struct Endless;

impl Device for Endless {
    fn sectors(&mut self) -> io::Result<u64> {
        Ok(u64::MAX)
    }

    fn read(&mut self, _: u32, sectors: &mut [Sector]) -> io::Result<()> {
        sectors.fill([0xff; 512]);
        Ok(())
    }

    fn write(&mut self, _: u32, _: &[Sector]) -> io::Result<()> {
        Ok(())
    }

    fn sync(&mut self) -> io::Result<()> {
        Ok(())
    }
}

#[test]
fn of_a_large_device_as_much_is_read_as_a_volume_has() {
    assert_eq!(refusal(Volume::over(Endless)), "NoCheckpoint");
    assert!(Volume::format_over(Endless, 1024, Version::Two).is_ok());
}
