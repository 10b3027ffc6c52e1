//! Files on a Pansuyog volume: a log-structured file system for a recorder or a small server, in an image file or on a block device, that
//! survives a loss of power at any moment without a repair, where the device keeps what a sync acknowledged.
//!
//! [`Volume::mount`] mounts the volume of an image, which is a file or a block device, and [`make`] makes one in a new file.
//! [`Volume::over`] mounts that of a [`Device`] of one's own, which reads, writes and syncs sectors of 512 bytes.
//!
//! ```
//! use pansuyog::{Error, Version, Volume};
//!
//! # fn main() -> Result<(), Error> {
//! # let image = std::env::temp_dir().join(format!("pansuyog-doc-{}.img", std::process::id()));
//! pansuyog::make(&image, 64, Version::Two)?;
//!
//! let mut volume = Volume::mount(&image)?;
//! let log = volume.create("/log")?;
//! volume.pwrite(log, 0, b"a record\n")?;
//! volume.sync()?;
//! // From here on no loss of power takes the record away.
//! drop(volume);
//!
//! let mut volume = Volume::mount(&image)?;
//! let log = volume.open("/log")?;
//! let mut bytes = [0; 64];
//! let count = volume.pread(log, 0, &mut bytes)?;
//! assert_eq!(bytes[..count], *b"a record\n");
//! assert!(matches!(volume.open("/none"), Err(Error::NoEntry)));
//! # drop(volume);
//! # std::fs::remove_file(&image)?;
//! # Ok(())
//! # }
//! ```
//!
//! The volume itself is one of two static libraries, whose every function is proved to meet its contract; `docs/LIBRARY.md` of the
//! repository says what the proofs cover. This crate is a wrapper that is only tested. `libpansuyog_file.a` reads and writes an image
//! itself, and keeps little of it in memory. `libpansuyog.a` is for devices of one's own, which are read into memory as they are mounted.
//! So they take 514 bytes for each sector: 2.1 MB for a volume of 64 segments, 33.6 MB for one of 1,024.
#![deny(unsafe_code)]

mod backend;
mod device;
mod error;
mod file;
mod image;
#[allow(unsafe_code)]
mod library;
mod making;
mod ordered;
mod shape;
mod volume;

pub use backend::{Backend, Image};
pub use device::{Device, SECTOR, Sector, sectors_of};
pub use error::Error;
pub use file::File;
pub use making::{make, make_with};
pub use shape::{Shape, Version};
pub use volume::{Entry, Handle, Kind, Space, Stat, Volume};
