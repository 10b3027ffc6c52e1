//! Where tests have their volumes: in a device in memory, which loses what wasn't synced, and fails where it is told; and in an image.
// No test needs all of it.
#![allow(dead_code)]

use pansuyog::{Backend, Device, Error, Image, SECTOR, Sector, Shape, Version, Volume, sectors_of};
use std::collections::{HashMap, HashSet};
use std::fmt::Display;
use std::os::unix::fs::FileExt;
use std::path::{Path, PathBuf};
use std::process::{self, Command};
use std::{env, fs, io};

pub struct MemoryDevice {
    pub sectors: Vec<Sector>,
    /// What the sectors held at the last sync that were written since.
    old: HashMap<usize, Sector>,
    pub unreadable: HashSet<u32>,
    /// How many more writes and syncs don't fail.
    pub good_calls: usize,
}

fn failed() -> io::Error {
    io::Error::other("the device failed")
}

impl MemoryDevice {
    /// A device for a volume of so many segments.
    pub fn new(segments: u32) -> MemoryDevice {
        MemoryDevice::of(sectors_of(segments) as usize)
    }

    /// A device of so many sectors.
    pub fn of(sectors: usize) -> MemoryDevice {
        MemoryDevice {
            sectors: vec![[0; SECTOR]; sectors],
            old: HashMap::new(),
            unreadable: HashSet::new(),
            good_calls: usize::MAX,
        }
    }

    /// The power goes, and comes again: what was written since the last sync is lost.
    pub fn lose_power(&mut self) {
        for (number, sector) in self.old.drain() {
            self.sectors[number] = sector;
        }
        self.good_calls = usize::MAX;
    }

    fn count_call(&mut self) -> io::Result<()> {
        self.good_calls = self.good_calls.checked_sub(1).ok_or_else(failed)?;
        Ok(())
    }
}

impl Device for MemoryDevice {
    fn sectors(&mut self) -> io::Result<u64> {
        Ok(self.sectors.len() as u64)
    }

    fn read(&mut self, first: u32, sectors: &mut [Sector]) -> io::Result<()> {
        for (number, sector) in (first..).zip(sectors) {
            if self.unreadable.contains(&number) {
                return Err(failed());
            }
            *sector = self.sectors[number as usize];
        }
        Ok(())
    }

    fn write(&mut self, first: u32, sectors: &[Sector]) -> io::Result<()> {
        self.count_call()?;
        for (number, sector) in (first as usize..).zip(sectors) {
            self.old.entry(number).or_insert(self.sectors[number]);
            self.sectors[number] = *sector;
        }
        Ok(())
    }

    fn sync(&mut self) -> io::Result<()> {
        self.count_call()?;
        self.old.clear();
        Ok(())
    }
}

/// Where a test has its volume.
pub trait Ground {
    type Under: Backend;

    /// Makes a volume in the place of what is there.
    fn format_with(&mut self, shape: Shape) -> Volume<Self::Under>;

    fn format(&mut self, segments: u32, version: Version) -> Volume<Self::Under> {
        self.format_with(Shape::new(segments, version))
    }

    /// A stop: what isn't saved is lost.
    fn stop(&mut self, volume: Volume<Self::Under>);

    /// Changes a byte, while nothing is mounted.
    fn damage(&mut self, sector: usize, place: usize, byte: u8);

    fn mount(&mut self) -> Result<Volume<Self::Under>, Error>;

    /// The volume as a mount finds it behind a stop.
    fn stopped(&mut self, volume: Volume<Self::Under>) -> Volume<Self::Under> {
        self.stop(volume);
        self.mount().unwrap()
    }
}

/// A volume over a device in memory, which is here while nothing is mounted.
#[derive(Default)]
pub struct InMemory(Option<MemoryDevice>);

impl Ground for InMemory {
    type Under = MemoryDevice;

    fn format_with(&mut self, shape: Shape) -> Volume<MemoryDevice> {
        let device = MemoryDevice::of(shape.sectors().unwrap() as usize);
        Volume::format_over_with(device, shape).unwrap()
    }

    fn stop(&mut self, volume: Volume<MemoryDevice>) {
        let mut device = volume.into_device();
        device.lose_power();
        self.0 = Some(device);
    }

    fn damage(&mut self, sector: usize, place: usize, byte: u8) {
        self.0.as_mut().unwrap().sectors[sector][place] = byte;
    }

    fn mount(&mut self) -> Result<Volume<MemoryDevice>, Error> {
        Volume::over(self.0.take().unwrap())
    }
}

/// An image that is removed again.
pub struct TemporaryImage(PathBuf);

impl TemporaryImage {
    pub fn new(name: &str) -> TemporaryImage {
        TemporaryImage(env::temp_dir().join(format!("pansuyog-{}-{name}.img", process::id())))
    }

    pub fn path(&self) -> &Path {
        &self.0
    }
}

impl Drop for TemporaryImage {
    fn drop(&mut self) {
        let _ = fs::remove_file(&self.0);
    }
}

impl Ground for TemporaryImage {
    type Under = Image;

    fn format_with(&mut self, shape: Shape) -> Volume {
        let _ = fs::remove_file(&self.0);
        pansuyog::make_with(&self.0, shape).unwrap();
        Volume::mount(&self.0).unwrap()
    }

    fn stop(&mut self, volume: Volume) {
        drop(volume);
    }

    fn damage(&mut self, sector: usize, place: usize, byte: u8) {
        let file = fs::File::options().write(true).open(&self.0).unwrap();
        file.write_all_at(&[byte], (SECTOR * sector + place) as u64).unwrap();
    }

    fn mount(&mut self) -> Result<Volume, Error> {
        Volume::mount(&self.0)
    }
}

/// Names the image in the environment of a test that is made once more, in a process of its own.
const OWN_PROCESS: &str = "PANSUYOG_OWN_PROCESS";

/// The image of a test that is made in a process of its own: what it is to do there is done to this one.
pub fn own_image() -> Option<PathBuf> {
    env::var_os(OWN_PROCESS).map(PathBuf::from)
}

/// Makes a test once more, in a process of its own, behind the words of a shell: what it prints last.
pub fn in_own_process(test: &str, image: &Path, words: &str) -> String {
    let mut bash = Command::new("bash");
    bash.args(["-c", &format!("{words} exec \"$0\" --exact {test} --nocapture")]);
    let ran = bash.arg(env::current_exe().unwrap()).env(OWN_PROCESS, image).output().unwrap();
    let said = String::from_utf8(ran.stdout).unwrap();
    assert!(ran.status.success(), "{said}{}", String::from_utf8_lossy(&ran.stderr));
    let (_, told) = said.split_once(TOLD).unwrap();
    told.lines().next().unwrap().to_string()
}

/// Stands before what a test in a process of its own tells.
const TOLD: &str = "it tells ";

/// Tells the test that made this process.
pub fn tell(text: impl Display) {
    println!("{TOLD}{text}");
}

/// The refusal of a call, as its name.
pub fn refusal<T>(outcome: Result<T, Error>) -> String {
    outcome.err().map_or("none".to_string(), |error| format!("{error:?}"))
}

/// Makes a test of each of these, which take a ground, in memory and in an image.
#[macro_export]
macro_rules! over_both {
    ($($test:ident)*) => {
        mod in_memory {
            $(#[test]
            fn $test() {
                super::$test(&mut super::common::InMemory::default());
            })*
        }

        mod in_an_image {
            $(#[test]
            fn $test() {
                super::$test(&mut super::common::TemporaryImage::new(stringify!($test)));
            })*
        }
    };
}
