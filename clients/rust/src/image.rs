//! Volumes in images, which are files or block devices: the library reads and writes them itself.
use crate::backend::Mounted;
use crate::error::Error;
use crate::library::{Access, Answer, FileLibrary, Library, Refused};
use crate::shape::Shape;
use std::fs::{self, File, TryLockError};
use std::io::{self, ErrorKind};
use std::os::unix::fs::FileTypeExt;
use std::path::Path;
use std::thread::sleep;
use std::time::Duration;

type Result<T> = std::result::Result<T, Error>;

/// How often who writes tries to lock an image: one that looks may hold the lock for a short time.
const LOCK_TRIES: u32 = 1_000;

const LOCK_PAUSE: Duration = Duration::from_millis(1);

/// Locks an image for who writes, as the program `lfs` does. For about a second it waits for others.
pub fn lock(file: &File) -> Result<()> {
    for _ in 0..LOCK_TRIES {
        match file.try_lock() {
            Ok(()) => return Ok(()),
            Err(TryLockError::WouldBlock) => sleep(LOCK_PAUSE),
            Err(TryLockError::Error(error)) => return Err(Error::LockFailed(error)),
        }
    }
    Err(Error::InUse)
}

/// Locks an image for who looks, as the program `lfs` does: beside others that look.
fn lock_to_look(file: &File) -> Result<()> {
    file.try_lock_shared().map_err(|error| match error {
        TryLockError::WouldBlock => Error::InUse,
        TryLockError::Error(error) => Error::LockFailed(error),
    })
}

/// Refuses what can be no image. It is looked up before it is opened, since opening a pipe waits for its other end.
fn look_up(path: &Path) -> io::Result<()> {
    let kind = fs::metadata(path)?.file_type();
    if kind.is_dir() {
        return Err(ErrorKind::IsADirectory.into());
    }
    if kind.is_file() || kind.is_block_device() {
        return Ok(());
    }
    Err(io::Error::new(ErrorKind::InvalidInput, "it is neither a file nor a block device"))
}

/// Opens and locks an image that is there.
fn open(path: &Path, access: Access) -> Result<File> {
    look_up(path)?;
    let file = File::options().read(true).write(access == Access::ReadWrite).open(path)?;
    match access {
        Access::ReadWrite => lock(&file)?,
        Access::ReadOnly => lock_to_look(&file)?,
    }
    Ok(file)
}

/// The system's error of this number. 0 is for a call that failed without one.
fn system_error(number: i32, untold: ErrorKind) -> io::Error {
    match number {
        0 => untold.into(),
        _ => io::Error::from_raw_os_error(number),
    }
}

/// A volume of the library over a file.
pub struct InImage {
    library: FileLibrary,
    is_halted: bool,
}

impl InImage {
    /// Takes a file that is locked. Nothing is mounted yet.
    pub fn take(file: File, access: Access) -> Result<InImage> {
        let mut library = FileLibrary::new().map_err(Error::of)?;
        library.take(file, access).map_err(Error::of)?;
        Ok(InImage { library, is_halted: false })
    }

    pub fn mount(path: &Path, access: Access) -> Result<InImage> {
        let volume = InImage::take(open(path, access)?, access)?;
        volume.mounted()
    }

    pub fn format(path: &Path, shape: Shape) -> Result<InImage> {
        let mut volume = InImage::take(open(path, Access::ReadWrite)?, Access::ReadWrite)?;
        volume.make(shape)?;
        volume.mounted()
    }

    /// Makes an empty volume in the file.
    pub fn make(&mut self, shape: Shape) -> Result<()> {
        let made = self.library.format(shape);
        made.map(drop).map_err(|refused| match Error::of(refused) {
            Error::Device(_) => self.failed_write(),
            error => error,
        })
    }

    fn mounted(mut self) -> Result<InImage> {
        let mounted = self.library.mount();
        mounted.map_err(|refused| self.error_of(refused))?;
        Ok(self)
    }

    /// The refusal of a call, with the system's error where a call of the file failed.
    fn error_of(&mut self, refused: Refused) -> Error {
        match Error::of(refused) {
            Error::Device(_) => Error::Device(system_error(self.library.errno(), ErrorKind::UnexpectedEof)),
            Error::Halted => {
                self.is_halted = true;
                self.failed_write()
            }
            error => error,
        }
    }

    fn failed_write(&mut self) -> Error {
        Error::WriteOrSync(system_error(self.library.errno(), ErrorKind::WriteZero))
    }
}

impl Mounted for InImage {
    fn look<T>(&mut self, call: impl FnOnce(&mut Library) -> Answer<T>) -> Result<T> {
        if self.is_halted {
            return Err(Error::Halted);
        }
        call(self.library.volume()).map_err(|refused| self.error_of(refused))
    }

    fn change<T>(&mut self, call: impl FnOnce(&mut Library) -> Answer<T>) -> Result<T> {
        self.look(call)
    }

    fn is_halted(&self) -> bool {
        self.is_halted
    }
}
