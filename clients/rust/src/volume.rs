//! Volumes and their calls.
use crate::backend::{Backend, Image, Mounted};
use crate::device::Device;
use crate::error::Error;
use crate::file::File;
use crate::image::InImage;
use crate::library::{Access, Library};
use crate::ordered::OverDevice;
use crate::shape::{Shape, Version};
use std::fmt::{self, Debug, Formatter};
use std::path::Path;

type Result<T> = std::result::Result<T, Error>;

/// An open file, by its number, 0 to 63. It is of the volume that opened it, until it is closed there. A call with a number that isn't open
/// is refused, as `BadHandle`.
#[derive(Clone, Copy, Debug, PartialEq, Eq, Hash)]
pub struct Handle(pub u32);

/// What an object is.
#[derive(Clone, Copy, Debug, PartialEq, Eq)]
pub enum Kind {
    /// A file.
    File,
    /// A directory.
    Directory,
    /// A symbolic link.
    Link,
}

impl Kind {
    /// The kind of a number of the headers, of which there are three.
    pub(crate) fn of(number: u32) -> Kind {
        match number {
            1 => Kind::File,
            2 => Kind::Directory,
            _ => Kind::Link,
        }
    }
}

/// What is told of an object.
#[derive(Clone, Copy, Debug, PartialEq, Eq)]
pub struct Stat {
    /// Its size: the bytes of a file or of a link's text; a directory's grows with its entries.
    pub size: u64,
    /// Its number, 1 to 4,095. The root has 1.
    pub number: u32,
    /// What it is.
    pub kind: Kind,
    /// How many links it has.
    pub links: u32,
}

/// An entry of a directory.
#[derive(Clone, Debug, PartialEq, Eq)]
pub struct Entry {
    /// Its name, 1 to 123 bytes.
    pub name: Vec<u8>,
    /// The number of what it names.
    pub number: u32,
    /// What it names.
    pub kind: Kind,
}

/// What the tree takes of a volume, in blocks of 512 bytes.
#[derive(Clone, Copy, Debug, PartialEq, Eq)]
pub struct Space {
    /// Blocks of files, directories and links that have a nonzero byte.
    pub data_blocks: u64,
    /// Inodes and pointer blocks.
    pub meta_blocks: u64,
    /// What the tree needs, with the room that the cleaner keeps.
    pub need: u64,
    /// The most that it may need.
    pub limit: u64,
}

/// A mounted volume: in an image, which is a file or a block device, or over a [`Device`] of one's own.
///
/// Each method is one call of a volume. Writes go out as calls make them necessary, and what isn't saved may be gone at the next mount.
/// After a [`sync`](Volume::sync) or [`fsync`](Volume::fsync) that is `Ok` every call before it survives a loss of power. Dropping the
/// volume saves nothing.
///
/// A path is any bytes, as `"/log"`, `b"/log"` or a `Vec<u8>`, and is walked from the root.
///
/// The refusals of a method stand there. Beside them any may be `NoMemory` where it reads or changes the tree, `Device` where the image
/// can't be read, and `Halted`. One that may write may be `Worn`, `ReadOnly` where the volume was mounted to be read alone, and `Write`,
/// `Sync` or `WriteOrSync` where the device fails.
pub struct Volume<D: Backend = Image> {
    mounted: D::Mounted,
}

impl<D: Backend> Debug for Volume<D> {
    fn fmt(&self, out: &mut Formatter<'_>) -> fmt::Result {
        out.debug_struct("Volume")
            .field("is_halted", &self.mounted.is_halted())
            .finish_non_exhaustive()
    }
}

/// In an image, which has the lock of the program `lfs` until the volume is dropped.
impl Volume {
    /// Mounts the volume of an image that is there, with no open handles, and locks the image against all others. It is synced and read,
    /// and nothing is written.
    ///
    /// # Errors
    /// `NoCheckpoint` where the image holds no volume, `TooSmall` where it is shorter than its volume, and `Damaged` with the stage of the
    /// check that fails. `NoMemory`, and `Device` where the image can't be read or synced. `InUse` where another program still has it after
    /// a second, `LockFailed`, and `Io` where it can't be opened.
    pub fn mount(path: impl AsRef<Path>) -> Result<Volume> {
        InImage::mount(path.as_ref(), Access::ReadWrite).map(|mounted| Volume { mounted })
    }

    /// Mounts the volume of an image to be read alone, beside others that look at it. Each call that may write is `ReadOnly`.
    ///
    /// # Errors
    /// Those of [`mount`](Volume::mount), with `InUse` at once where a program has the image that may write.
    pub fn mount_read_only(path: impl AsRef<Path>) -> Result<Volume> {
        InImage::mount(path.as_ref(), Access::ReadOnly).map(|mounted| Volume { mounted })
    }

    /// Makes an empty volume of 64 to 1,024 segments, a multiple of 8, in an image that is there, and mounts it. Its units are sectors:
    /// [`format_with`](Volume::format_with) makes one of any shape. Whatever the image held is gone: [`make`](crate::make) makes a volume
    /// only where no file is.
    ///
    /// # Errors
    /// `Inval` for another number of segments, `TooSmall`, `NoMemory`, and `WriteOrSync` or `Device` where the image fails. `InUse`,
    /// `LockFailed` and `Io` as of [`mount`](Volume::mount).
    pub fn format(path: impl AsRef<Path>, segments: u32, version: Version) -> Result<Volume> {
        Volume::format_with(path, Shape::new(segments, version))
    }

    /// Makes an empty volume of a shape, as [`format`](Volume::format) makes one whose units are sectors. It takes
    /// [`sectors`](Shape::sectors), 32 KiB a segment.
    ///
    /// # Errors
    /// `Inval` where there are no volumes of this shape, and those of [`format`](Volume::format).
    pub fn format_with(path: impl AsRef<Path>, shape: Shape) -> Result<Volume> {
        InImage::format(path.as_ref(), shape).map(|mounted| Volume { mounted })
    }
}

/// Over a device of one's own, which is kept in memory with 514 bytes for each sector.
impl<D: Device> Volume<D> {
    /// Mounts the volume that a device holds, with no open handles. The device is synced and read whole, and nothing is written.
    ///
    /// # Errors
    /// `NoCheckpoint` where the device holds no volume, `TooSmall` where it is shorter than its volume, and `Damaged` with the stage of the
    /// check that fails, also where a sector that is needed couldn't be read. `NoMemory`, `Device`, `Sync` where the device can't be
    /// synced, and `Io` where its sectors can't be counted.
    pub fn over(device: D) -> Result<Volume<D>> {
        OverDevice::mount(device).map(|mounted| Volume { mounted })
    }

    /// Makes an empty volume of 64 to 1,024 segments, a multiple of 8, and mounts it. Its units are sectors. Whatever the device held is
    /// gone.
    ///
    /// # Errors
    /// `Inval` for another number of segments, `TooSmall`, `NoMemory`, and `Write`, `Sync` or `Io` where the device fails.
    pub fn format_over(device: D, segments: u32, version: Version) -> Result<Volume<D>> {
        Volume::format_over_with(device, Shape::new(segments, version))
    }

    /// Makes an empty volume of a shape, as [`format_over`](Volume::format_over) makes one whose units are sectors. It takes
    /// [`sectors`](Shape::sectors). The device is told the writes of single sectors, whatever the unit is.
    ///
    /// # Errors
    /// `Inval` where there are no volumes of this shape, and those of [`format_over`](Volume::format_over).
    pub fn format_over_with(device: D, shape: Shape) -> Result<Volume<D>> {
        OverDevice::format(device, shape).map(|mounted| Volume { mounted })
    }

    /// The device, as the last call left it. Nothing is saved: call [`sync`](Volume::sync) before.
    pub fn into_device(self) -> D {
        self.mounted.device
    }

    /// The device.
    pub fn device(&self) -> &D {
        &self.mounted.device
    }
}

/// The calls.
impl<D: Backend> Volume<D> {
    /// Makes an empty file, and opens it.
    ///
    /// # Errors
    /// Those of a new entry (`Exist` where the name is there, `NoEntry`, `NotDir` and others of the path), `TooManyOpen`, `NoNumber`,
    /// `NoSpace`.
    pub fn create(&mut self, path: impl AsRef<[u8]>) -> Result<Handle> {
        self.mounted.change(|library| library.create(path.as_ref())).map(Handle)
    }

    /// Opens a file, for reading and writing.
    ///
    /// # Errors
    /// Those of the path, `IsDir`, `TooManyOpen`.
    pub fn open(&mut self, path: impl AsRef<[u8]>) -> Result<Handle> {
        self.mounted.look(|library| library.open(path.as_ref())).map(Handle)
    }

    /// Gives up a handle. A file without a name goes with its last one.
    ///
    /// # Errors
    /// `BadHandle`.
    pub fn close(&mut self, handle: Handle) -> Result<()> {
        self.mounted.change(|library| library.close(handle.0)).map(drop)
    }

    /// Reads bytes of a file from an offset on: how many. They are fewer than there is room for where the file ends, and none past it.
    ///
    /// # Errors
    /// `BadHandle`, and `Inval` where there is room for more than 65,536 bytes.
    pub fn pread(&mut self, handle: Handle, offset: u64, bytes: &mut [u8]) -> Result<usize> {
        self.mounted
            .look(|library| library.pread(handle.0, offset, bytes))
            .map(|count| count as usize)
    }

    /// Writes bytes into a file at an offset, all of them or none: how many. A gap behind the file's end is zeros.
    ///
    /// # Errors
    /// `BadHandle`, `Inval` for more than 65,536 bytes, `FileTooBig`, `NoSpace`.
    pub fn pwrite(&mut self, handle: Handle, offset: u64, bytes: &[u8]) -> Result<usize> {
        self.mounted
            .change(|library| library.pwrite(handle.0, offset, bytes))
            .map(|count| count as usize)
    }

    /// The open file of a handle with a position, for all that takes [`Read`](std::io::Read), [`Write`](std::io::Write) and
    /// [`Seek`](std::io::Seek). That the handle isn't open shows at the first call.
    pub fn file(&mut self, handle: Handle) -> File<'_, D> {
        File::new(self, handle)
    }

    /// Gives a file this size in bytes: it is cut, or zeros are added.
    ///
    /// # Errors
    /// `BadHandle`, `FileTooBig`, `NoSpace`.
    pub fn truncate(&mut self, handle: Handle, size: u64) -> Result<()> {
        self.mounted.change(|library| library.truncate(handle.0, size)).map(drop)
    }

    /// Makes an empty directory.
    ///
    /// # Errors
    /// Those of a new entry, `TooManyLinks`, `NoNumber`, `NoSpace`.
    pub fn mkdir(&mut self, path: impl AsRef<[u8]>) -> Result<()> {
        self.mounted.change(|library| library.mkdir(path.as_ref())).map(drop)
    }

    /// Removes an empty directory.
    ///
    /// # Errors
    /// Those of the path, `Busy` for the root, `NotDir`, `NotEmpty`.
    pub fn rmdir(&mut self, path: impl AsRef<[u8]>) -> Result<()> {
        self.mounted.change(|library| library.rmdir(path.as_ref())).map(drop)
    }

    /// Takes a name of a file or a link away. A file without names stays while a handle is open on it.
    ///
    /// # Errors
    /// Those of the path, and `Perm` for a directory.
    pub fn unlink(&mut self, path: impl AsRef<[u8]>) -> Result<()> {
        self.mounted.change(|library| library.unlink(path.as_ref())).map(drop)
    }

    /// Gives the object of a path another name.
    ///
    /// # Errors
    /// Those of both paths, `Perm` for a directory, `TooManyLinks`, `NoSpace`.
    pub fn link(&mut self, from: impl AsRef<[u8]>, to: impl AsRef<[u8]>) -> Result<()> {
        self.mounted.change(|library| library.link(from.as_ref(), to.as_ref())).map(drop)
    }

    /// Gives the object of a path another name in the place of this one, in one change. What that name gave before loses it.
    ///
    /// # Errors
    /// Those of both paths, `Busy` for the root, `Inval` where a directory would go into itself, `IsDir`, `NotDir`, `NotEmpty` and others.
    pub fn rename(&mut self, from: impl AsRef<[u8]>, to: impl AsRef<[u8]>) -> Result<()> {
        self.mounted.change(|library| library.rename(from.as_ref(), to.as_ref())).map(drop)
    }

    /// Makes a symbolic link with a text of 1 to 1,023 bytes.
    ///
    /// # Errors
    /// Those of a new entry, `NameTooLong` and `Inval` for the text, `NoNumber`, `NoSpace`.
    pub fn symlink(&mut self, text: impl AsRef<[u8]>, path: impl AsRef<[u8]>) -> Result<()> {
        self.mounted
            .change(|library| library.symlink(text.as_ref(), path.as_ref()))
            .map(drop)
    }

    /// The text of a symbolic link.
    ///
    /// # Errors
    /// Those of the path, and `Inval` where it is no link.
    pub fn readlink(&mut self, path: impl AsRef<[u8]>) -> Result<Vec<u8>> {
        self.mounted.look(|library| library.readlink(path.as_ref()))
    }

    /// What stands at a path, whose last link is followed.
    ///
    /// # Errors
    /// Those of the path.
    pub fn stat(&mut self, path: impl AsRef<[u8]>) -> Result<Stat> {
        self.mounted.look(|library| library.stat(path.as_ref()))
    }

    /// What stands at a path, whose last link isn't followed.
    ///
    /// # Errors
    /// Those of the path.
    pub fn lstat(&mut self, path: impl AsRef<[u8]>) -> Result<Stat> {
        self.mounted.look(|library| library.lstat(path.as_ref()))
    }

    /// The entries of a directory, without dot and dot-dot, ordered by the bytes of their names.
    ///
    /// # Errors
    /// Those of the path, and `NotDir`.
    pub fn readdir(&mut self, path: impl AsRef<[u8]>) -> Result<Vec<Entry>> {
        self.mounted.look(|library| {
            let count = library.list(path.as_ref())?;
            (0..count as usize).map(|place| library.entry(place)).collect()
        })
    }

    /// Saves the volume, with the file of a handle: after `Ok` every call before survives a loss of power.
    ///
    /// # Errors
    /// `BadHandle`.
    pub fn fsync(&mut self, handle: Handle) -> Result<()> {
        self.mounted.change(|library| library.fsync(handle.0)).map(drop)
    }

    /// Saves the volume: after `Ok` every call before survives a loss of power.
    ///
    /// # Errors
    /// None of its own.
    pub fn sync(&mut self) -> Result<()> {
        self.mounted.change(Library::sync).map(drop)
    }

    /// Cleans segments until a quarter of them is clean.
    ///
    /// # Errors
    /// None of its own.
    pub fn clean(&mut self) -> Result<()> {
        self.mounted.change(Library::clean).map(drop)
    }

    /// Whether fewer than a quarter of the segments is clean, so that the two calls that clean have something to do.
    ///
    /// # Errors
    /// None of its own.
    pub fn is_cleaning_due(&mut self) -> Result<bool> {
        Ok(self.mounted.look(Library::is_cleaning_due)? == 1)
    }

    /// Makes one pass of the cleaner where that is so, and nothing else. What isn't saved is saved before. A program that calls it in its
    /// idle moments waits seldom for the cleaner in another call.
    ///
    /// # Errors
    /// None of its own.
    pub fn clean_once(&mut self) -> Result<()> {
        self.mounted.change(Library::clean_once).map(drop)
    }

    /// What the tree takes, and the most that it may need.
    ///
    /// # Errors
    /// None of its own.
    pub fn space(&mut self) -> Result<Space> {
        self.mounted.look(Library::space)
    }

    /// The version of the volume's layout.
    ///
    /// # Errors
    /// None of its own.
    pub fn version(&mut self) -> Result<Version> {
        self.mounted.look(Library::version).map(Version::of)
    }

    /// What the volume was made with, and the version that it has now: [`make_with`](crate::make_with) makes another one like it.
    ///
    /// # Errors
    /// None of its own.
    pub fn shape(&mut self) -> Result<Shape> {
        self.mounted.look(Library::shape)
    }

    /// Makes version 2 of version 1 of the layout. There is no way back. A later version stays.
    ///
    /// # Errors
    /// None of its own.
    pub fn upgrade(&mut self) -> Result<()> {
        self.mounted.change(Library::upgrade).map(drop)
    }

    /// Lets a directory of a volume of version 2 or later take names of up to 123 bytes. It then has twice as many bytes.
    ///
    /// # Errors
    /// Those of the path, `NotDir`, `Inval` in version 1, `NoSpace`.
    pub fn widen(&mut self, path: impl AsRef<[u8]>) -> Result<()> {
        self.mounted.change(|library| library.widen(path.as_ref())).map(drop)
    }

    /// Begins to record lines in numbered files of the root, as `00000001-2026-11-29`, of which the oldest goes where there is no space. The
    /// next file begins behind `bytes` bytes, and with each day. At most `files` are kept, or for 0 as many as there is space for. The
    /// newest file goes on where it ends with a newline and no other name gives it. A recorder that had begun before ends.
    ///
    /// # Errors
    /// Those of [`readdir`](Volume::readdir) of the root, and of [`lstat`](Volume::lstat), [`open`](Volume::open) and others of the newest
    /// file. No recorder is there then.
    pub fn record_begin(&mut self, bytes: u32, files: u32) -> Result<()> {
        self.mounted.change(|library| library.record_begin(bytes, files)).map(drop)
    }

    /// Writes a line of a day, as `"2026-11-29"`, and a newline behind it: all of it or nothing. Nothing waits outside of the volume.
    ///
    /// # Errors
    /// `Inval` for what is no day, for a line of more than 65,535 bytes or with a newline, and where no recorder has begun. `NoSpace` where
    /// no older file is left that could go, and what [`create`](Volume::create), [`pwrite`](Volume::pwrite),
    /// [`readdir`](Volume::readdir), [`unlink`](Volume::unlink) and [`close`](Volume::close) refuse.
    pub fn record_line(&mut self, day: impl AsRef<[u8]>, line: impl AsRef<[u8]>) -> Result<()> {
        self.mounted
            .change(|library| library.record_line(day.as_ref(), line.as_ref()))
            .map(drop)
    }

    /// Saves all lines so far: after `Ok` each survives a loss of power.
    ///
    /// # Errors
    /// `Inval` where no recorder has begun.
    pub fn record_save(&mut self) -> Result<()> {
        self.mounted.change(Library::record_save).map(drop)
    }
}
