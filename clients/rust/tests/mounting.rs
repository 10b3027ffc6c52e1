//! Volumes in images: which are mounted and made, by whom, and to be read alone.
mod common;

use common::{Ground, MemoryDevice, TemporaryImage, refusal};
use pansuyog::{Error, Shape, Version, Volume};
use std::fs::{self, File};
use std::io::ErrorKind;
use std::path::Path;
use std::thread::{self, sleep};
use std::time::Duration;

/// The kind of the system's error with which an image isn't opened.
fn kind_of_refusal(path: impl AsRef<Path>) -> ErrorKind {
    match Volume::mount(path) {
        Err(Error::Io(error)) => error.kind(),
        other => panic!("it isn't refused so: {other:?}"),
    }
}

#[test]
fn a_file_keeps_a_volume() {
    let mut image = TemporaryImage::new("keeps");
    let mut volume = image.format(1024, Version::Two);
    let handle = volume.create("/log").unwrap();
    for number in 0..200u8 {
        volume.pwrite(handle, 4_000 * u64::from(number), &[number; 4_000]).unwrap();
    }
    volume.fsync(handle).unwrap();
    volume.mkdir("/lost").unwrap();
    let mut volume = image.stopped(volume);
    assert_eq!(fs::metadata(image.path()).unwrap().len(), 512 * (2 + 64 * 1024));
    assert_eq!(volume.readdir("/").unwrap().len(), 1);
    assert_eq!(volume.stat("/log").unwrap().size, 800_000);
    let handle = volume.open("/log").unwrap();
    let mut bytes = [0; 4_001];
    assert_eq!(volume.pread(handle, 4_000 * 98 + 3_999, &mut bytes).unwrap(), 4_001);
    assert_eq!((bytes[0], &bytes[1..]), (98, &[99; 4_000][..]));
}

/// Both libraries in one program: a device that was read out of an image holds its volume.
#[test]
fn a_volume_is_the_same_in_both_libraries() {
    let mut image = TemporaryImage::new("both");
    let mut volume = image.format(64, Version::Two);
    let handle = volume.create("/log").unwrap();
    volume.pwrite(handle, 1_000, b"a record").unwrap();
    volume.sync().unwrap();
    let mut device = MemoryDevice::new(64);
    device.sectors.as_flattened_mut().copy_from_slice(&fs::read(image.path()).unwrap());
    let mut copy = Volume::over(&mut device).unwrap();
    assert_eq!(copy.stat("/log").unwrap(), volume.stat("/log").unwrap());
    copy.unlink("/log").unwrap();
    copy.mkdir("/logs").unwrap();
    copy.sync().unwrap();
    assert_eq!(volume.stat("/log").unwrap().size, 1_008);
    drop((volume, copy));
    fs::write(image.path(), device.sectors.as_flattened()).unwrap();
    let names = image.mount().unwrap().readdir("/").unwrap();
    assert_eq!(names.into_iter().map(|it| it.name).collect::<Vec<_>>(), [b"logs"]);
}

#[test]
fn an_image_is_used_by_one_volume() {
    let mut image = TemporaryImage::new("locked");
    let volume = image.format(64, Version::One);
    assert_eq!(refusal(Volume::mount(image.path())), "InUse");
    assert_eq!(refusal(Volume::mount_read_only(image.path())), "InUse");
    assert_eq!(refusal(Volume::format(image.path(), 64, Version::Two)), "InUse");
    drop(volume);
    assert_eq!(image.mount().unwrap().version().unwrap(), Version::One);
}

#[test]
fn an_image_is_read_by_several_volumes() {
    let mut image = TemporaryImage::new("looks");
    drop(image.format(64, Version::Two));
    let look = || Volume::mount_read_only(image.path());
    let (mut first, mut second) = (look().unwrap(), look().unwrap());
    assert_eq!((first.readdir("/").unwrap(), second.readdir("/").unwrap()), (vec![], vec![]));
    assert_eq!(refusal(Volume::mount(image.path())), "InUse");
    drop((first, second));
    assert!(Volume::mount(image.path()).is_ok());
}

#[test]
fn who_writes_waits_for_a_look() {
    let mut image = TemporaryImage::new("waits");
    drop(image.format(64, Version::Two));
    let look = Volume::mount_read_only(image.path()).unwrap();
    thread::scope(|scope| {
        scope.spawn(move || {
            sleep(Duration::from_millis(200));
            drop(look);
        });
        assert!(Volume::mount(image.path()).is_ok());
    });
}

#[test]
fn a_volume_that_is_only_read_refuses_what_may_write() {
    let mut image = TemporaryImage::new("only-read");
    let mut volume = image.format(64, Version::One);
    let handle = volume.create("/f").unwrap();
    volume.pwrite(handle, 0, b"bytes").unwrap();
    volume.symlink("f", "/l").unwrap();
    volume.mkdir("/d").unwrap();
    volume.sync().unwrap();
    drop(volume);
    let before = fs::read(image.path()).unwrap();
    let mut volume = Volume::mount_read_only(image.path()).unwrap();
    let handle = volume.open("/l").unwrap();
    let refusals = [
        refusal(volume.create("/g")),
        refusal(volume.pwrite(handle, 0, b"other")),
        refusal(volume.truncate(handle, 0)),
        refusal(volume.mkdir("/e")),
        refusal(volume.rmdir("/d")),
        refusal(volume.unlink("/f")),
        refusal(volume.link("/f", "/g")),
        refusal(volume.rename("/f", "/g")),
        refusal(volume.symlink("f", "/g")),
        refusal(volume.fsync(handle)),
        refusal(volume.sync()),
        refusal(volume.clean()),
        refusal(volume.clean_once()),
        refusal(volume.upgrade()),
        refusal(volume.widen("/")),
        refusal(volume.record_begin(10, 2)),
        refusal(volume.record_line("2026-01-01", "a")),
        refusal(volume.record_save()),
    ];
    assert_eq!(refusals, ["ReadOnly"; 18]);
    let mut bytes = [0; 9];
    assert_eq!(volume.pread(handle, 0, &mut bytes).unwrap(), 5);
    assert_eq!(bytes[..5], *b"bytes");
    assert_eq!(volume.readlink("/l").unwrap(), b"f");
    assert_eq!(volume.readdir("/").unwrap().len(), 3);
    volume.close(handle).unwrap();
    assert!(!volume.is_cleaning_due().unwrap());
    assert_eq!(volume.version().unwrap(), Version::One);
    drop(volume);
    assert!(fs::read(image.path()).unwrap() == before);
}

#[test]
fn what_is_no_image_is_not_opened() {
    let image = TemporaryImage::new("no-image");
    assert_eq!(kind_of_refusal(image.path()), ErrorKind::NotFound);
    File::create(image.path()).unwrap();
    assert_eq!(kind_of_refusal(image.path().join("none")), ErrorKind::NotADirectory);
    assert_eq!(kind_of_refusal("/"), ErrorKind::IsADirectory);
    assert_eq!(kind_of_refusal("/dev/null"), ErrorKind::InvalidInput);
    assert_eq!(refusal(Volume::mount(image.path())), "TooSmall");
    fs::write(image.path(), vec![0; 512 * (2 + 64 * 64)]).unwrap();
    assert_eq!(refusal(Volume::mount(image.path())), "NoCheckpoint");
    assert_eq!(refusal(Volume::mount_read_only(image.path())), "NoCheckpoint");
    // What was refused has no lock any more.
    assert_eq!(refusal(Volume::mount(image.path())), "NoCheckpoint");
}

#[test]
fn a_volume_is_made_where_no_file_is() {
    let image = TemporaryImage::new("made");
    for segments in [0, 63, 65, 1032, u32::MAX] {
        assert_eq!(refusal(pansuyog::make(image.path(), segments, Version::Two)), "Inval");
    }
    assert!(!image.path().exists());
    pansuyog::make(image.path(), 72, Version::Two).unwrap();
    let made = fs::read(image.path()).unwrap();
    assert_eq!(made.len(), 512 * (2 + 64 * 72));
    assert_eq!(refusal(pansuyog::make(image.path(), 64, Version::One)), "Exist");
    assert!(fs::read(image.path()).unwrap() == made);
    assert!(matches!(
        pansuyog::make(image.path().join("none"), 64, Version::One),
        Err(Error::Io(_))
    ));
}

#[test]
fn a_volume_is_made_in_place_of_what_an_image_holds() {
    let image = TemporaryImage::new("format");
    fs::write(image.path(), vec![7; 512 * (2 + 64 * 64)]).unwrap();
    for segments in [0, 63, 65, 1032, u32::MAX] {
        assert_eq!(refusal(Volume::format(image.path(), segments, Version::Two)), "Inval");
    }
    assert_eq!(refusal(Volume::format(image.path(), 72, Version::Two)), "TooSmall");
    assert!(fs::read(image.path()).unwrap().iter().all(|it| *it == 7));
    let mut volume = Volume::format(image.path(), 64, Version::One).unwrap();
    volume.mkdir("/d").unwrap();
    volume.sync().unwrap();
    drop(volume);
    let mut volume = Volume::mount(image.path()).unwrap();
    assert_eq!(volume.version().unwrap(), Version::One);
    assert_eq!(volume.readdir("/").unwrap().len(), 1);
}

/// Shapes of which there are no volumes.
fn unknown_shapes() -> [Shape; 6] {
    let shape = Shape::new(64, Version::Three);
    [
        Shape { segments: 65, ..shape },
        Shape {
            segment_sectors: 32,
            ..shape
        },
        Shape { unit: 0, ..shape },
        Shape { unit: 3, ..shape },
        Shape { unit: 128, ..shape },
        Shape {
            version: Version::Two,
            unit: 2,
            ..shape
        },
    ]
}

#[test]
fn a_shape_has_its_sectors() {
    assert_eq!(Shape::new(64, Version::One).sectors(), Some(2 + 64 * 64));
    assert_eq!(Shape::new(1_024, Version::Two).sectors(), Some(2 + 64 * 1_024));
    for unit in [1, 2, 4, 8, 16, 32, 64] {
        assert_eq!(
            Shape {
                unit,
                ..Shape::new(72, Version::Three)
            }
            .sectors(),
            Some(256 + 64 * 72)
        );
    }
    assert_eq!(unknown_shapes().map(Shape::sectors), [None; 6]);
}

/// The shape is looked at before the image's size, and what is refused leaves the image as it was.
#[test]
fn a_volume_of_a_shape_is_made_or_refused() {
    let image = TemporaryImage::new("shaped");
    let shape = Shape {
        unit: 8,
        ..Shape::new(72, Version::Three)
    };
    for unknown in unknown_shapes() {
        assert_eq!(refusal(pansuyog::make_with(image.path(), unknown)), "Inval");
    }
    assert!(!image.path().exists());
    pansuyog::make_with(image.path(), shape).unwrap();
    assert_eq!(fs::metadata(image.path()).unwrap().len(), 512 * (256 + 64 * 72));
    assert_eq!(refusal(pansuyog::make_with(image.path(), shape)), "Exist");
    let before = fs::read(image.path()).unwrap();
    for unknown in unknown_shapes() {
        assert_eq!(
            refusal(Volume::format_with(
                image.path(),
                Shape {
                    segments: unknown.segments + 64,
                    ..unknown
                }
            )),
            "Inval"
        );
    }
    assert_eq!(
        refusal(Volume::format_with(image.path(), Shape { segments: 80, ..shape })),
        "TooSmall"
    );
    assert!(fs::read(image.path()).unwrap() == before);
    let mut volume = Volume::format_with(image.path(), Shape { unit: 64, ..shape }).unwrap();
    assert_eq!(volume.shape().unwrap(), Shape { unit: 64, ..shape });
}

/// A device that is one sector too short for version 3 may have a volume of version 2.
#[test]
fn a_volume_of_a_shape_is_made_on_a_device_or_refused() {
    let shape = Shape::new(64, Version::Three);
    let mut device = MemoryDevice::of(256 + 64 * 64 - 1);
    for unknown in unknown_shapes() {
        assert_eq!(refusal(Volume::format_over_with(&mut device, unknown)), "Inval");
    }
    assert_eq!(refusal(Volume::format_over_with(&mut device, shape)), "TooSmall");
    assert!(device.sectors.iter().flatten().all(|it| *it == 0));
    let mut volume = Volume::format_over_with(&mut device, Shape::new(64, Version::Two)).unwrap();
    assert_eq!(volume.shape().unwrap(), Shape::new(64, Version::Two));
}
