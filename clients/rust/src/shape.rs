//! What volumes are made with.
use crate::library;

/// The version of a volume's layout.
#[derive(Clone, Copy, Debug, PartialEq, Eq)]
pub enum Version {
    /// Names have up to 59 bytes.
    One = 1,
    /// Names in a new directory have up to 123 bytes.
    Two = 2,
    /// The same, with a checksum in each checkpoint. Units may have several sectors, and a commit ends on a whole one.
    Three = 3,
}

impl Version {
    /// The version of a number of the headers, of which there are three.
    pub(crate) fn of(number: u32) -> Version {
        match number {
            1 => Version::One,
            2 => Version::Two,
            _ => Version::Three,
        }
    }
}

/// What a volume is made with: how many segments it has, its version, and how many sectors a segment and a unit have.
///
/// A medium may write several sectors as one unit, and lose all of them where it is stopped. For such a one make a volume of version 3 with
/// units of as many sectors, or of a multiple.
///
/// ```
/// use pansuyog::{Shape, Version};
///
/// // A medium with units of 4,096 bytes.
/// let shape = Shape { unit: 8, ..Shape::new(64, Version::Three) };
/// assert_eq!(shape.sectors(), Some(256 + 64 * 64));
/// assert_eq!(Shape { unit: 3, ..shape }.sectors(), None);
/// ```
#[derive(Clone, Copy, Debug, PartialEq, Eq)]
pub struct Shape {
    /// 64 to 1,024, a multiple of 8.
    pub segments: u32,
    /// The version of the layout.
    pub version: Version,
    /// How many sectors a segment has: 64.
    pub segment_sectors: u32,
    /// How many sectors a unit has: 1, or in version 3 a power of 2 from 1 to 64.
    pub unit: u32,
}

impl Shape {
    /// A shape whose units are sectors.
    pub const fn new(segments: u32, version: Version) -> Shape {
        Shape {
            segments,
            version,
            segment_sectors: 64,
            unit: 1,
        }
    }

    /// How many sectors a volume of this shape takes, if there are any of it.
    pub fn sectors(self) -> Option<u32> {
        match library::shape_sectors(self) {
            0 => None,
            sectors => Some(sectors),
        }
    }
}
