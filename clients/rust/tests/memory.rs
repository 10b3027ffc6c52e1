//! How much memory a volume in an image takes.
mod common;

use common::{Ground, TemporaryImage, in_own_process, own_image, tell};
use pansuyog::{Error, Version, Volume};
use std::fs;
use std::path::Path;

/// The most that a full volume of 1,024 segments may take, in KiB, mounted and overwritten.
const MOST: u64 = 5_000;

/// The pieces of the largest file.
const PIECES: u64 = 129;

static PIECE: [u8; 65_536] = [7; 65_536];

/// Fills a volume with large files, until it has no space for more.
fn fill(volume: &mut Volume) {
    for number in 0..PIECES * PIECES {
        let path = format!("/{}", number / PIECES);
        let handle = match volume.open(&path) {
            Err(Error::NoEntry) => volume.create(&path).unwrap(),
            opened => opened.unwrap(),
        };
        match volume.pwrite(handle, PIECE.len() as u64 * (number % PIECES), &PIECE) {
            Err(Error::NoSpace) => return,
            written => assert_eq!(written.unwrap(), PIECE.len()),
        }
        volume.close(handle).unwrap();
    }
    unreachable!()
}

/// Memory of this process, in KiB: what is in use, by `VmRSS`, or the most that was, by `VmHWM`.
fn memory(field: &str) -> u64 {
    let status = fs::read_to_string("/proc/self/status").unwrap();
    let line = status.lines().find(|it| it.starts_with(field)).unwrap();
    line.split_whitespace().nth(1).unwrap().parse().unwrap()
}

/// Mounts a volume and overwrites a file of it: the memory that this took at most.
fn taken_by_overwrites(image: &Path) -> u64 {
    let before = memory("VmRSS:");
    let mut volume = Volume::mount(image).unwrap();
    assert!(volume.space().unwrap().data_blocks >= 40_000);
    let handle = volume.open("/0").unwrap();
    for number in 0..10_000 {
        volume.pwrite(handle, 512 * (number * 7_919 % 16_384), &PIECE[..512]).unwrap();
        if number % 100 == 99 {
            volume.sync().unwrap();
        }
    }
    memory("VmHWM:") - before
}

#[test]
fn a_large_volume_takes_little_memory() {
    if let Some(image) = own_image() {
        return tell(taken_by_overwrites(&image));
    }
    let mut image = TemporaryImage::new("memory");
    let mut volume = image.format(1024, Version::Two);
    fill(&mut volume);
    volume.sync().unwrap();
    drop(volume);
    let taken: u64 = in_own_process("a_large_volume_takes_little_memory", image.path(), "")
        .parse()
        .unwrap();
    println!("{taken} KiB");
    assert!((1..=MOST).contains(&taken));
}
