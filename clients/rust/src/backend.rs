//! What volumes stand over: an image, or a device of a program's own.
use crate::device::Device;
use crate::error::Error;
use crate::image::InImage;
use crate::library::{Answer, Library};
use crate::ordered::OverDevice;

/// What a [`Volume`](crate::Volume) stands over: an [`Image`], or a [`Device`] of one's own. There are no others.
pub trait Backend: Sealed {}

/// A file or a block device, by its path, which the library reads and writes itself.
#[derive(Debug)]
pub enum Image {}

impl Backend for Image {}

impl<D: Device> Backend for D {}

pub trait Sealed {
    type Mounted: Mounted;
}

impl Sealed for Image {
    type Mounted = InImage;
}

impl<D: Device> Sealed for D {
    type Mounted = OverDevice<D>;
}

/// A mounted volume in one of the libraries.
pub trait Mounted {
    /// Makes a call that changes nothing.
    fn look<T>(&mut self, call: impl FnOnce(&mut Library) -> Answer<T>) -> Result<T, Error>;

    /// Makes a call that may write.
    fn change<T>(&mut self, call: impl FnOnce(&mut Library) -> Answer<T>) -> Result<T, Error>;

    /// Whether no call is taken any more.
    fn is_halted(&self) -> bool;
}
