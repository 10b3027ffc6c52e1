//! Why a call is refused.
use crate::library::Refused;
use std::error;
use std::fmt::{self, Display, Formatter};
use std::io;

/// Why a call is refused. After all but [`Error::Halted`], [`Error::Write`], [`Error::Sync`] and [`Error::WriteOrSync`] the tree and the
/// handles are as before the call, and the volume goes on. `docs/CALLS.md` of the repository has each call with its refusals, in their
/// order.
#[derive(Debug)]
#[non_exhaustive]
pub enum Error {
    /// A name isn't there, or a path is empty.
    NoEntry,
    /// A directory is needed here.
    NotDir,
    /// A directory isn't taken here.
    IsDir,
    /// The entry is there already.
    Exist,
    /// The directory has entries.
    NotEmpty,
    /// An argument isn't taken.
    Inval,
    /// A name, a path or the text of a link is too long.
    NameTooLong,
    /// More than 40 links were to be followed.
    Loop,
    /// A directory isn't linked or unlinked.
    Perm,
    /// The root can't be removed or renamed.
    Busy,
    /// No such handle is open.
    BadHandle,
    /// 64 handles are open.
    TooManyOpen,
    /// The object has 1,000 links.
    TooManyLinks,
    /// This is past the greatest file size, 8,511,488 bytes.
    FileTooBig,
    /// The tree would need more than the volume has.
    NoSpace,
    /// All 4,095 numbers are taken.
    NoNumber,
    /// The directory has 1,024 entries.
    DirFull,
    /// Memory was refused.
    NoMemory,
    /// A read of an image failed, with the system's error: the call may be tried again. As the volume was mounted it may have been a sync:
    /// through the cache of a kernel restart the machine before the next mount. Over a device of one's own a sector that is needed couldn't
    /// be read as the volume was mounted.
    Device(io::Error),
    /// The volume takes no call any more, since its device failed, or memory for a write was refused. Mount it anew: an image once the
    /// volume is dropped, and a device of your own once [`Volume::into_device`](crate::Volume::into_device) gave it back.
    Halted,
    /// Too few segments are clean. It never comes.
    Stuck,
    /// The volume has had 2^62 checkpoints.
    Worn,
    /// The device has too few sectors.
    TooSmall,
    /// The device holds no volume.
    NoCheckpoint,
    /// The volume is damaged: the first stage of its check, 1 to 15, that it fails.
    Damaged(u8),
    /// A write of the device failed. The volume is halted then. The device holds what a loss of power may leave, so a mount of it finds
    /// every call up to the last sync that was told of.
    Write(io::Error),
    /// A sync of the device failed, and then it is as with `Write`.
    Sync(io::Error),
    /// A write or a sync of an image failed, and it isn't known which of the two. Then it is as with `Write`.
    WriteOrSync(io::Error),
    /// The volume was mounted to be read alone, and the call may write.
    ReadOnly,
    /// Another program has the image.
    InUse,
    /// The system can't lock the image, with its error.
    LockFailed(io::Error),
    /// An image can't be opened or named, or the sectors of a device can't be counted.
    Io(io::Error),
    /// The library answered a number that this crate doesn't know.
    Unknown(i32),
}

const DAMAGED: i32 = -100;

fn untold() -> io::Error {
    io::Error::other("the system told no cause")
}

impl Error {
    /// The refusal of a number of the headers, without what the system told of it.
    pub(crate) fn of(Refused(code): Refused) -> Error {
        match code {
            -1 => Error::NoEntry,
            -2 => Error::NotDir,
            -3 => Error::IsDir,
            -4 => Error::Exist,
            -5 => Error::NotEmpty,
            -6 => Error::Inval,
            -7 => Error::NameTooLong,
            -8 => Error::Loop,
            -9 => Error::Perm,
            -10 => Error::Busy,
            -11 => Error::BadHandle,
            -12 => Error::TooManyOpen,
            -13 => Error::TooManyLinks,
            -14 => Error::FileTooBig,
            -15 => Error::NoSpace,
            -16 => Error::NoNumber,
            -17 => Error::DirFull,
            -18 => Error::NoMemory,
            -19 => Error::Device(untold()),
            -20 => Error::Halted,
            -21 => Error::Stuck,
            -22 => Error::Worn,
            -30 => Error::TooSmall,
            -31 => Error::NoCheckpoint,
            -43 => Error::ReadOnly,
            -44 => Error::InUse,
            -45 => Error::LockFailed(untold()),
            -115..=-101 => Error::Damaged((DAMAGED - code) as u8),
            _ => Error::Unknown(code),
        }
    }
}

impl Display for Error {
    fn fmt(&self, out: &mut Formatter<'_>) -> fmt::Result {
        let text = match self {
            Error::NoEntry => "the volume has nothing of this name",
            Error::NotDir => "a directory is needed here",
            Error::IsDir => "this is a directory",
            Error::Exist => "this is there already",
            Error::NotEmpty => "the directory has entries",
            Error::Inval => "an argument isn't taken",
            Error::NameTooLong => "a path has at most 1023 bytes, and a name 59, or 123 where the format and `widen` let it",
            Error::Loop => "more than 40 links were to be followed",
            Error::Perm => "a directory isn't linked or unlinked",
            Error::Busy => "the root can't be removed or renamed",
            Error::BadHandle => "no such handle is open",
            Error::TooManyOpen => "64 handles are open",
            Error::TooManyLinks => "the object has 1000 links",
            Error::FileTooBig => "this is past the greatest size of a file",
            Error::NoSpace => "the volume has no space for this",
            Error::NoNumber => "the volume has 4095 objects",
            Error::DirFull => "the directory has 1024 entries",
            Error::NoMemory => "there isn't enough memory",
            Error::Halted => "the volume takes no call any more: its device failed, or memory for a write was refused",
            Error::Stuck => "too few segments of the volume are clean",
            Error::Worn => "the volume was changed too often to be changed again",
            Error::TooSmall => "the device is shorter than its volume, or than any volume",
            Error::NoCheckpoint => "the device holds no volume",
            Error::ReadOnly => "the volume was mounted only to be read",
            Error::InUse => "it is in use by another program",
            Error::Device(error) => return write!(out, "the device failed: {error}"),
            Error::Damaged(stage) => return write!(out, "the volume is damaged: it fails stage {stage} of its check"),
            Error::Write(error) => return write!(out, "a write failed: {error}"),
            Error::Sync(error) => return write!(out, "a sync failed: {error}"),
            Error::WriteOrSync(error) => return write!(out, "a write or a sync failed: {error}"),
            Error::LockFailed(error) => return write!(out, "it can't be locked: {error}"),
            Error::Io(error) => return write!(out, "{error}"),
            Error::Unknown(code) => return write!(out, "the library answered {code}, which isn't known here"),
        };
        out.write_str(text)
    }
}

impl error::Error for Error {
    fn source(&self) -> Option<&(dyn error::Error + 'static)> {
        match self {
            Error::Device(error)
            | Error::Write(error)
            | Error::Sync(error)
            | Error::WriteOrSync(error)
            | Error::LockFailed(error)
            | Error::Io(error) => Some(error),
            _ => None,
        }
    }
}

impl From<io::Error> for Error {
    fn from(error: io::Error) -> Error {
        Error::Io(error)
    }
}
