//! Volumes in new files.
use crate::device::SECTOR;
use crate::error::Error;
use crate::image::{InImage, lock};
use crate::library::Access;
use crate::shape::{Shape, Version};
use std::fs::{self, File};
use std::io::{self, ErrorKind};
use std::os::unix::fs::MetadataExt;
use std::path::{Path, PathBuf};

type Result<T> = std::result::Result<T, Error>;

/// Makes an empty volume of 64 to 1,024 segments, a multiple of 8, in a file that isn't there yet. Its units are sectors.
///
/// Until the volume is whole and synced its file has another name, with `.lfs-make` at its end, and is locked. So a stop leaves no half of
/// a volume, and the next `make` begins that file anew. On a file system without links a stop may leave an empty file beside it.
///
/// # Errors
/// `Exist` where something has the name, be it a link that leads nowhere: that stays as it is. `Inval` for another number of segments,
/// `NoMemory`, `Write`, `Sync` and `WriteOrSync`. `InUse` where another program is making the volume, `LockFailed`, and `Io` where the file
/// can't be opened or named.
pub fn make(path: impl AsRef<Path>, segments: u32, version: Version) -> Result<()> {
    make_with(path, Shape::new(segments, version))
}

/// Makes an empty volume of a shape in a file that isn't there yet, as [`make`] makes one whose units are sectors. The file has the
/// [`sectors`](Shape::sectors) that it takes.
///
/// # Errors
/// `Inval` where there are no volumes of this shape, and those of [`make`].
pub fn make_with(path: impl AsRef<Path>, shape: Shape) -> Result<()> {
    let path = path.as_ref();
    let sectors = shape.sectors().ok_or(Error::Inval)?;
    let named = make_named(path, shape, sectors);
    // A name that is there may be of a moment ago, by a program that was stopped.
    let synced = sync_folder_of(path);
    named.and(synced)
}

fn make_named(path: &Path, shape: Shape, sectors: u32) -> Result<()> {
    let made = made_of(path);
    // It has the lock until it is dropped.
    let file = open_made(path, &made)?;
    let named = fill(&file, shape, sectors).and_then(|()| name(&made, path));
    if named.is_err() {
        let _ = fs::remove_file(&made);
    }
    named
}

/// The name of a file until its volume is whole.
fn made_of(path: &Path) -> PathBuf {
    let mut name = path.as_os_str().to_os_string();
    name.push(".lfs-make");
    name.into()
}

/// Opens and locks the file in which a volume is to be made. What an earlier stop left of it is taken, but where it was named as a volume
/// by then, that one is left alone.
fn open_made(path: &Path, made: &Path) -> Result<File> {
    loop {
        match fs::symlink_metadata(path) {
            Ok(_) => return Err(Error::Exist),
            Err(error) if error.kind() != ErrorKind::NotFound => return Err(error.into()),
            Err(_) => {}
        }
        if fs::symlink_metadata(made).is_ok_and(|it| !it.is_file()) {
            let text = format!("{} is in the way", made.display());
            return Err(io::Error::new(ErrorKind::AlreadyExists, text).into());
        }
        let mut how = File::options();
        let file = how.read(true).write(true).create(true).truncate(false).open(made)?;
        lock(&file)?;
        let here = file.metadata()?;
        if fs::symlink_metadata(made).is_ok_and(|it| (it.dev(), it.ino()) == (here.dev(), here.ino())) {
            if here.nlink() < 2 {
                return Ok(file);
            }
            fs::remove_file(made)?;
        }
        // Another program has named or removed it meanwhile, or it was the second name of a volume: all is looked at anew.
    }
}

/// Makes a volume in a file, of which nothing is kept.
fn fill(file: &File, shape: Shape, sectors: u32) -> Result<()> {
    let length = SECTOR as u64 * u64::from(sectors);
    file.set_len(0).and_then(|()| file.set_len(length)).map_err(Error::Write)?;
    InImage::take(file.try_clone()?, Access::ReadWrite)?.make(shape)?;
    file.sync_all().map_err(Error::Sync)
}

/// Gives a file its name, where nothing has it. Not each file system has links: there an empty file takes the name first, and gives way to
/// this one.
fn name(made: &Path, path: &Path) -> Result<()> {
    let named = match fs::hard_link(made, path) {
        Ok(()) => {
            let _ = fs::remove_file(made);
            Ok(())
        }
        Err(error) if matches!(error.kind(), ErrorKind::PermissionDenied | ErrorKind::Unsupported) => {
            File::create_new(path).and_then(|_| fs::rename(made, path))
        }
        Err(error) => Err(error),
    };
    named.map_err(|error| match error.kind() {
        ErrorKind::AlreadyExists => Error::Exist,
        _ => error.into(),
    })
}

/// Lets the name of a new file stay. Not each folder can be read, and not each file system syncs one.
fn sync_folder_of(path: &Path) -> Result<()> {
    let folder = match path.parent() {
        Some(folder) if folder != Path::new("") => folder,
        _ => Path::new("."),
    };
    let Ok(folder) = File::open(folder) else {
        return Ok(());
    };
    match folder.sync_all() {
        Err(error) if error.kind() != ErrorKind::InvalidInput => Err(Error::Sync(error)),
        _ => Ok(()),
    }
}
