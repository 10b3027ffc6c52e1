//! Images that can't be read or written while a volume is mounted.
mod common;

use common::{Ground, TemporaryImage, in_own_process, own_image, refusal, tell};
use pansuyog::{Error, Version, Volume};
use std::error;
use std::fs::{self, File};
use std::io::{self, ErrorKind};
use std::path::Path;

/// Where the image ends within the volume its bytes can't be read. The call is refused, and may be tried again.
#[test]
fn a_read_that_fails_refuses_the_call_alone() {
    let mut image = TemporaryImage::new("read");
    let mut volume = image.format(64, Version::Two);
    let handle = volume.create("/f").unwrap();
    volume.pwrite(handle, 0, &[7; 65_536]).unwrap();
    volume.sync().unwrap();
    let mut volume = image.stopped(volume);
    let handle = volume.open("/f").unwrap();
    let kept = fs::read(image.path()).unwrap();
    File::options().write(true).open(image.path()).unwrap().set_len(0).unwrap();
    let mut bytes = vec![0; 65_536];
    match volume.pread(handle, 0, &mut bytes) {
        Err(Error::Device(error)) => assert_eq!(error.kind(), ErrorKind::UnexpectedEof),
        other => panic!("the read isn't refused so: {other:?}"),
    }
    assert_eq!(volume.stat("/f").unwrap().size, 65_536);
    fs::write(image.path(), kept).unwrap();
    assert_eq!(volume.pread(handle, 0, &mut bytes).unwrap(), 65_536);
    assert!(bytes.iter().all(|it| *it == 7));
}

/// The sizes, in KiB, that a file may have: a write of a later segment fails.
const LIMITS: [u32; 3] = [64, 512, 1_024];

fn append(volume: &mut Volume, number: u64) -> Result<(), Error> {
    let handle = match volume.open("/log") {
        Err(Error::NoEntry) => volume.create("/log")?,
        opened => opened?,
    };
    volume.pwrite(handle, 4_096 * number, &[number as u8; 4_096])?;
    volume.sync()?;
    volume.close(handle)
}

/// Appends records until a write fails, which it does: how many were saved.
fn append_to_the_limit(image: &Path) -> u64 {
    let mut volume = Volume::mount(image).unwrap();
    for number in 0.. {
        let Err(refused) = append(&mut volume, number) else {
            continue;
        };
        assert!(matches!(&refused, Error::WriteOrSync(error) if error.kind() == ErrorKind::FileTooLarge));
        let text = format!("a write or a sync failed: {}", io::Error::from_raw_os_error(27));
        assert_eq!(refused.to_string(), text);
        assert!(error::Error::source(&refused).is_some());
        assert_eq!(refusal(volume.sync()), "Halted");
        assert_eq!(refusal(volume.stat("/log")), "Halted");
        return number;
    }
    unreachable!()
}

#[test]
fn a_write_that_fails_halts_the_volume() {
    if let Some(image) = own_image() {
        return tell(append_to_the_limit(&image));
    }
    for limit in LIMITS {
        let mut image = TemporaryImage::new("limit");
        drop(image.format(64, Version::Two));
        let words = format!("trap '' XFSZ; ulimit -f {limit};");
        let saved: u64 = in_own_process("a_write_that_fails_halts_the_volume", image.path(), &words)
            .parse()
            .unwrap();
        assert!(saved > 0);
        let mut volume = image.mount().unwrap();
        let size = volume.stat("/log").map_or(0, |it| it.size);
        assert!(
            size == 4_096 * saved || size == 4_096 * (saved + 1),
            "{saved} were saved, of {size} bytes"
        );
        append(&mut volume, saved).unwrap();
    }
}
