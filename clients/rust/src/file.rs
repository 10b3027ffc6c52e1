//! An open file with a position, as the standard library's files have one.
use crate::backend::{Backend, Image};
use crate::error::Error;
use crate::volume::{Handle, Volume};
use std::fmt::{self, Debug, Formatter};
use std::io::{self, ErrorKind, Read, Seek, SeekFrom, Write};

/// The bytes of the longest read or write, and of the largest file.
const LONGEST_TRANSFER: usize = 65_536;
const LARGEST_FILE: u64 = 8_511_488;

/// An open file of a volume with a position, which is 0 at first, for all that takes [`Read`], [`Write`] and [`Seek`]:
/// [`Volume::file`] makes it of a handle. The volume is lent to it. The handle stays open when it is dropped.
///
/// A read or a write is of 65,536 bytes at most, so [`write_all`](Write::write_all) and [`read_to_end`](Read::read_to_end) make several
/// calls of more. Nothing is saved before [`sync_all`](File::sync_all), or [`sync`](Volume::sync) of the volume: [`flush`](Write::flush)
/// does nothing. A refusal is an [`io::Error`] that has the [`Error`] within, and the kind that fits it.
///
/// ```
/// use pansuyog::{Version, Volume};
/// use std::io::{BufRead, BufReader, Seek, SeekFrom, Write};
///
/// # fn main() -> std::io::Result<()> {
/// # let image = std::env::temp_dir().join(format!("pansuyog-file-{}.img", std::process::id()));
/// pansuyog::make(&image, 64, Version::Two)?;
/// let mut volume = Volume::mount(&image)?;
/// let handle = volume.create("/log")?;
/// let mut log = volume.file(handle);
/// log.seek(SeekFrom::End(0))?;
/// writeln!(log, "a record")?;
/// log.sync_all()?;
/// log.rewind()?;
/// let lines: Vec<String> = BufReader::new(log).lines().collect::<Result<_, _>>()?;
/// assert_eq!(lines, ["a record"]);
/// # drop(volume);
/// # std::fs::remove_file(&image)?;
/// # Ok(())
/// # }
/// ```
pub struct File<'a, D: Backend = Image> {
    volume: &'a mut Volume<D>,
    handle: Handle,
    position: u64,
    /// As it was last, which is looked at first where the size is wanted.
    last_size: u64,
}

impl<D: Backend> Debug for File<'_, D> {
    fn fmt(&self, out: &mut Formatter<'_>) -> fmt::Result {
        out.debug_struct("File")
            .field("handle", &self.handle)
            .field("position", &self.position)
            .finish_non_exhaustive()
    }
}

impl<'a, D: Backend> File<'a, D> {
    pub(crate) fn new(volume: &'a mut Volume<D>, handle: Handle) -> File<'a, D> {
        File {
            volume,
            handle,
            position: 0,
            last_size: 0,
        }
    }

    /// Saves the volume, as [`Volume::fsync`].
    ///
    /// # Errors
    /// Those of [`Volume::fsync`].
    pub fn sync_all(&mut self) -> io::Result<()> {
        Ok(self.volume.fsync(self.handle)?)
    }

    /// Gives the file this size in bytes, as [`Volume::truncate`]. The position stays.
    ///
    /// # Errors
    /// Those of [`Volume::truncate`].
    pub fn set_len(&mut self, size: u64) -> io::Result<()> {
        Ok(self.volume.truncate(self.handle, size)?)
    }

    /// Whether the file has a byte at an offset.
    fn has(&mut self, offset: u64) -> io::Result<bool> {
        Ok(self.volume.pread(self.handle, offset, &mut [0])? == 1)
    }

    /// The size. No call tells that of a handle, so it is found by bytes that are there and that aren't.
    fn size(&mut self) -> io::Result<u64> {
        let last = self.last_size;
        if (last == 0 || self.has(last - 1)?) && !self.has(last)? {
            return Ok(last);
        }
        let (mut low, mut high) = (0, LARGEST_FILE);
        while low < high {
            let middle = low.midpoint(high);
            if self.has(middle)? {
                low = middle + 1;
            } else {
                high = middle;
            }
        }
        self.last_size = low;
        Ok(low)
    }
}

impl<D: Backend> Read for File<'_, D> {
    fn read(&mut self, bytes: &mut [u8]) -> io::Result<usize> {
        let most = bytes.len().min(LONGEST_TRANSFER);
        let count = self.volume.pread(self.handle, self.position, &mut bytes[..most])?;
        self.position += count as u64;
        Ok(count)
    }
}

impl<D: Backend> Write for File<'_, D> {
    fn write(&mut self, bytes: &[u8]) -> io::Result<usize> {
        let most = bytes.len().min(LONGEST_TRANSFER);
        let count = self.volume.pwrite(self.handle, self.position, &bytes[..most])?;
        self.position += count as u64;
        self.last_size = self.last_size.max(self.position);
        Ok(count)
    }

    fn flush(&mut self) -> io::Result<()> {
        Ok(())
    }
}

impl<D: Backend> Seek for File<'_, D> {
    fn seek(&mut self, place: SeekFrom) -> io::Result<u64> {
        let wanted = match place {
            SeekFrom::Start(offset) => Some(offset),
            SeekFrom::Current(by) => self.position.checked_add_signed(by),
            SeekFrom::End(by) => self.size()?.checked_add_signed(by),
        };
        self.position = wanted.ok_or_else(|| io::Error::from(ErrorKind::InvalidInput))?;
        Ok(self.position)
    }
}

/// A refusal as an error of the standard library, which has it within.
impl From<Error> for io::Error {
    fn from(error: Error) -> io::Error {
        let kind = match &error {
            Error::NoEntry => ErrorKind::NotFound,
            Error::NotDir => ErrorKind::NotADirectory,
            Error::IsDir => ErrorKind::IsADirectory,
            Error::Exist => ErrorKind::AlreadyExists,
            Error::NotEmpty => ErrorKind::DirectoryNotEmpty,
            Error::Inval | Error::BadHandle => ErrorKind::InvalidInput,
            Error::NameTooLong => ErrorKind::InvalidFilename,
            Error::Perm => ErrorKind::PermissionDenied,
            Error::Busy | Error::InUse => ErrorKind::ResourceBusy,
            Error::TooManyLinks => ErrorKind::TooManyLinks,
            Error::FileTooBig => ErrorKind::FileTooLarge,
            Error::NoSpace | Error::NoNumber | Error::DirFull => ErrorKind::StorageFull,
            Error::NoMemory => ErrorKind::OutOfMemory,
            Error::ReadOnly => ErrorKind::ReadOnlyFilesystem,
            Error::NoCheckpoint | Error::Damaged(_) => ErrorKind::InvalidData,
            Error::Device(cause)
            | Error::Write(cause)
            | Error::Sync(cause)
            | Error::WriteOrSync(cause)
            | Error::LockFailed(cause)
            | Error::Io(cause) => cause.kind(),
            _ => ErrorKind::Other,
        };
        io::Error::new(kind, error)
    }
}
