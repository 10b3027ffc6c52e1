//! Calls over a device in memory and in an image, and arguments that aren't taken.
mod common;

use common::{Ground, refusal};
use pansuyog::{Backend, Entry, Handle, Kind, Shape, Space, Stat, Version, Volume};
use std::thread;

over_both! {
    one_byte_is_there_after_a_stop
    a_file_without_names_is_gone_after_a_stop
    links_and_entries_have_their_bounds
    a_renamed_file_takes_the_place_of_an_open_one
    arguments_that_are_not_taken_are_refused
    an_old_volume_takes_longer_names_once_it_is_upgraded
    idle_moments_clean_pass_by_pass
    a_damaged_volume_tells_its_stage
    a_volume_goes_to_another_thread
    a_volume_keeps_its_shape
    a_recorder_writes_lines_to_files
    what_is_no_line_is_refused
    a_recorder_goes_on_in_the_newest_file
    the_oldest_file_of_a_recorder_goes
}

fn bytes_of<D: Backend>(volume: &mut Volume<D>, path: &str) -> Vec<u8> {
    let handle = volume.open(path).unwrap();
    let mut bytes = vec![0; 65_536];
    let count = volume.pread(handle, 0, &mut bytes).unwrap();
    volume.close(handle).unwrap();
    bytes.truncate(count);
    bytes
}

fn file(number: u32, links: u32, size: u64) -> Stat {
    Stat {
        size,
        number,
        kind: Kind::File,
        links,
    }
}

fn one_byte_is_there_after_a_stop(ground: &mut impl Ground) {
    let mut volume = ground.format(64, Version::One);
    let handle = volume.create("/f").unwrap();
    assert_eq!(handle, Handle(0));
    assert_eq!(volume.pwrite(handle, 0, b"a").unwrap(), 1);
    volume.sync().unwrap();
    let space = Space {
        data_blocks: 2,
        meta_blocks: 2,
        need: 736,
        limit: 3008,
    };
    assert_eq!(volume.space().unwrap(), space);
    let mut volume = ground.stopped(volume);
    assert_eq!(
        volume.readdir("/").unwrap(),
        [Entry {
            name: b"f".to_vec(),
            number: 2,
            kind: Kind::File
        }]
    );
    assert_eq!(volume.stat("/f").unwrap(), file(2, 1, 1));
    assert_eq!(bytes_of(&mut volume, "/f"), b"a");
}

fn a_file_without_names_is_gone_after_a_stop(ground: &mut impl Ground) {
    let mut volume = ground.format(64, Version::One);
    let handle = volume.create("/f").unwrap();
    volume.pwrite(handle, 0, b"ab").unwrap();
    volume.unlink("/f").unwrap();
    let mut bytes = [0; 9];
    assert_eq!(volume.pread(handle, 0, &mut bytes).unwrap(), 2);
    assert_eq!(bytes[..2], *b"ab");
    assert_eq!(volume.create("/h").unwrap(), Handle(1));
    volume.sync().unwrap();
    let mut volume = ground.stopped(volume);
    assert_eq!(
        volume.readdir("/").unwrap(),
        [Entry {
            name: b"h".to_vec(),
            number: 3,
            kind: Kind::File
        }]
    );
    assert_eq!(volume.create("/g").unwrap(), Handle(0));
    assert_eq!(volume.stat("/g").unwrap(), file(2, 1, 0));
}

fn links_and_entries_have_their_bounds(ground: &mut impl Ground) {
    let mut volume = ground.format(64, Version::One);
    volume.create("/a").unwrap();
    for number in 1..=999 {
        volume.link("/a", format!("/a{number}")).unwrap();
    }
    assert_eq!(refusal(volume.link("/a", "/x")), "TooManyLinks");
    volume.create("/b").unwrap();
    for number in 1..=23 {
        volume.link("/b", format!("/b{number}")).unwrap();
    }
    assert_eq!(refusal(volume.link("/b", "/x")), "DirFull");
    volume.rename("/b", "/y").unwrap();
    let space = Space {
        data_blocks: 128,
        meta_blocks: 4,
        need: 876,
        limit: 3008,
    };
    assert_eq!(volume.space().unwrap(), space);
    assert_eq!(volume.readdir("/").unwrap().len(), 1024);
}

fn a_renamed_file_takes_the_place_of_an_open_one(ground: &mut impl Ground) {
    let mut volume = ground.format(64, Version::One);
    volume.create("/a").unwrap();
    let open = volume.create("/b").unwrap();
    volume.pwrite(open, 0, b"b").unwrap();
    volume.rename("/a", "/b").unwrap();
    let mut bytes = [0; 4];
    assert_eq!(volume.pread(open, 0, &mut bytes).unwrap(), 1);
    assert_eq!(bytes, *b"b\0\0\0");
    assert_eq!(volume.stat("/b").unwrap(), file(2, 1, 0));
    assert_eq!(
        volume.readdir("/").unwrap(),
        [Entry {
            name: b"b".to_vec(),
            number: 2,
            kind: Kind::File
        }]
    );
}

fn arguments_that_are_not_taken_are_refused(ground: &mut impl Ground) {
    let mut volume = ground.format(64, Version::One);
    let handle = volume.create("/f").unwrap();
    let mut long = vec![b'x'; 65_537];
    assert_eq!(refusal(volume.pwrite(handle, 0, &long)), "Inval");
    assert_eq!(refusal(volume.pread(handle, 0, &mut long)), "Inval");
    assert_eq!(refusal(volume.pwrite(handle, u64::MAX, b"x")), "FileTooBig");
    assert_eq!(refusal(volume.truncate(handle, 8_511_489)), "FileTooBig");
    assert_eq!(volume.pread(handle, u64::MAX, &mut long[..9]).unwrap(), 0);
    assert_eq!(volume.pwrite(handle, 0, b"").unwrap(), 0);
    assert_eq!(volume.pread(handle, 0, &mut []).unwrap(), 0);
    for number in [1, 64, u32::MAX] {
        assert_eq!(refusal(volume.close(Handle(number))), "BadHandle");
        assert_eq!(refusal(volume.fsync(Handle(number))), "BadHandle");
    }
    assert_eq!(refusal(volume.open("")), "NoEntry");
    assert_eq!(refusal(volume.open("/a\0")), "Inval");
    assert_eq!(refusal(volume.open(&long)), "NameTooLong");
    assert_eq!(refusal(volume.symlink(&long, "/l")), "NameTooLong");
    assert_eq!(refusal(volume.rename("/", "/")), "Busy");
    assert_eq!(refusal(volume.readlink("/f")), "Inval");
    assert_eq!(refusal(volume.readdir("/f")), "NotDir");
    volume.symlink(&long[..1_023], "/l").unwrap();
    assert_eq!(volume.readlink("/l").unwrap(), &long[..1_023]);
}

fn an_old_volume_takes_longer_names_once_it_is_upgraded(ground: &mut impl Ground) {
    let mut volume = ground.format(64, Version::One);
    let (short, long) = (format!("/{}", "n".repeat(59)), format!("/{}", "n".repeat(123)));
    volume.mkdir(&short).unwrap();
    assert_eq!(volume.version().unwrap(), Version::One);
    assert_eq!(refusal(volume.mkdir(&long)), "NameTooLong");
    assert_eq!(refusal(volume.widen("/")), "Inval");
    volume.upgrade().unwrap();
    volume.widen("/").unwrap();
    volume.mkdir(&long).unwrap();
    volume.sync().unwrap();
    let mut volume = ground.stopped(volume);
    assert_eq!(volume.version().unwrap(), Version::Two);
    assert_eq!(volume.readdir("/").unwrap()[1].name, long.as_bytes()[1..]);
}

fn idle_moments_clean_pass_by_pass(ground: &mut impl Ground) {
    let mut volume = ground.format(64, Version::One);
    let handle = volume.create("/f").unwrap();
    let mut wanted = vec![9; 1 << 20];
    for (piece, bytes) in (0..).zip(wanted.chunks(65_536)) {
        volume.pwrite(handle, 65_536 * piece, bytes).unwrap();
    }
    volume.sync().unwrap();
    assert!(!volume.is_cleaning_due().unwrap());
    volume.clean_once().unwrap();
    // Overwrites all over the file leave segments that are partly in use.
    let due = (0..2_000).find(|number| {
        let start = 512 * (number * 7_919 % 2_048);
        wanted[start..start + 512].fill(1 + (number % 255) as u8);
        volume.pwrite(handle, start as u64, &wanted[start..start + 512]).unwrap();
        volume.sync().unwrap();
        volume.is_cleaning_due().unwrap()
    });
    assert!(due.is_some());
    // Each pass gains a segment at least, and 16 are to be clean.
    let passes = (0..16).find(|_| {
        volume.clean_once().unwrap();
        !volume.is_cleaning_due().unwrap()
    });
    assert!(passes.is_some());
    let mut volume = ground.stopped(volume);
    let handle = volume.open("/f").unwrap();
    for (piece, bytes) in (0..).zip(wanted.chunks(65_536)) {
        let mut found = vec![0; 65_536];
        assert_eq!(volume.pread(handle, 65_536 * piece, &mut found).unwrap(), 65_536);
        assert!(found == bytes);
    }
}

/// Each byte that makes a new volume of 64 segments a damaged one: its sector, its place, the byte, and the stage that fails.
const DAMAGES: [(usize, usize, u8, u8); 9] = [
    (5, 8, 1, 1),
    (2, 0, 4, 2),
    (1, 32, 5, 3),
    (4, 4, 0, 3),
    (3, 16, 1, 4),
    (3, 32, 5, 7),
    (2, 8, 2, 8),
    (5, 2, 2, 9),
    (3, 8, 3, 13),
];

fn a_damaged_volume_tells_its_stage(ground: &mut impl Ground) {
    for (sector, place, byte, stage) in DAMAGES {
        let volume = ground.format(64, Version::One);
        ground.stop(volume);
        ground.damage(sector, place, byte);
        assert_eq!(refusal(ground.mount()), format!("Damaged({stage})"));
    }
}

fn a_volume_goes_to_another_thread<G: Ground>(ground: &mut G)
where
    Volume<G::Under>: Send,
{
    let mut volume = ground.format(64, Version::Two);
    thread::scope(|scope| {
        scope.spawn(|| volume.mkdir("/made").unwrap());
    });
    assert_eq!(volume.stat("/made").unwrap().kind, Kind::Directory);
}

fn a_volume_keeps_its_shape(ground: &mut impl Ground) {
    let sectors = Shape::new(64, Version::Three);
    for shape in [
        sectors,
        Shape { unit: 8, ..sectors },
        Shape {
            unit: 64,
            segments: 1_024,
            ..sectors
        },
    ] {
        let mut volume = ground.format_with(shape);
        assert_eq!((volume.shape().unwrap(), volume.version().unwrap()), (shape, Version::Three));
        let handle = volume.create("/f").unwrap();
        volume.pwrite(handle, 0, &[97; 3_000]).unwrap();
        volume.sync().unwrap();
        volume.upgrade().unwrap();
        let mut volume = ground.stopped(volume);
        assert_eq!(volume.shape().unwrap(), shape);
        assert!(bytes_of(&mut volume, "/f") == [97; 3_000]);
    }
    let mut volume = ground.format(72, Version::One);
    assert_eq!(volume.shape().unwrap(), Shape::new(72, Version::One));
    volume.upgrade().unwrap();
    volume.sync().unwrap();
    assert_eq!(ground.stopped(volume).shape().unwrap(), Shape::new(72, Version::Two));
}

/// The files of the root, each with its bytes.
fn files_of<D: Backend>(volume: &mut Volume<D>) -> Vec<(String, Vec<u8>)> {
    let entries = volume.readdir("/").unwrap();
    let names = entries.into_iter().map(|entry| String::from_utf8(entry.name).unwrap());
    names
        .map(|name| {
            let bytes = bytes_of(volume, &format!("/{name}"));
            (name, bytes)
        })
        .collect()
}

fn named(files: &[(&str, &[u8])]) -> Vec<(String, Vec<u8>)> {
    files.iter().map(|(name, bytes)| (name.to_string(), bytes.to_vec())).collect()
}

fn a_recorder_writes_lines_to_files(ground: &mut impl Ground) {
    let mut volume = ground.format(64, Version::One);
    volume.record_begin(10, 2).unwrap();
    volume.record_line("2026-01-01", "one").unwrap();
    volume.record_line(b"2026-01-01", b"and two").unwrap();
    assert_eq!(files_of(&mut volume), named(&[("00000001-2026-01-01", b"one\nand two\n")]));
    volume.record_line("2026-01-01", "three").unwrap();
    volume.record_line("2026-01-02", "").unwrap();
    let three = ("00000002-2026-01-01", &b"three\n"[..]);
    let empty = ("00000003-2026-01-02", &b"\n"[..]);
    assert_eq!(files_of(&mut volume), named(&[three, empty]));
    volume.record_line("2026-01-01", "back").unwrap();
    assert_eq!(files_of(&mut volume), named(&[empty, ("00000004-2026-01-01", b"back\n")]));
}

fn what_is_no_line_is_refused(ground: &mut impl Ground) {
    let mut volume = ground.format(64, Version::One);
    let long = vec![b'a'; 65_536];
    assert_eq!(refusal(volume.record_line("2026-01-01", "a")), "Inval");
    assert_eq!(refusal(volume.record_save()), "Inval");
    volume.record_begin(1, 0).unwrap();
    assert_eq!(refusal(volume.record_line("2026-01-01", "a\nb")), "Inval");
    assert_eq!(refusal(volume.record_line("2026-01-01", &long)), "Inval");
    for day in ["", "2026-1-1", "2026/01/01", "2026-01-01 "] {
        assert_eq!(refusal(volume.record_line(day, "a")), "Inval");
    }
    assert_eq!(volume.readdir("/").unwrap(), []);
    volume.record_line("2026-01-01", &long[1..]).unwrap();
    assert_eq!(volume.stat("/00000001-2026-01-01").unwrap().size, 65_536);
}

fn a_recorder_goes_on_in_the_newest_file(ground: &mut impl Ground) {
    let mut volume = ground.format(64, Version::One);
    // What a recorder had open is given up as another begins.
    for _ in 0..100 {
        volume.record_begin(1_000, 0).unwrap();
        volume.record_line("2026-01-01", "a").unwrap();
    }
    volume.record_save().unwrap();
    volume.record_line("2026-01-02", "lost").unwrap();
    let mut volume = ground.stopped(volume);
    assert_eq!(refusal(volume.record_line("2026-01-01", "a")), "Inval");
    let first = b"a\n".repeat(100);
    assert_eq!(files_of(&mut volume), named(&[("00000001-2026-01-01", &first)]));
    let handle = volume.open("/00000001-2026-01-01").unwrap();
    volume.pwrite(handle, 200, b"half").unwrap();
    volume.record_begin(1_000, 0).unwrap();
    volume.record_line("2026-01-01", "whole").unwrap();
    assert_eq!(files_of(&mut volume)[1], ("00000002-2026-01-01".to_string(), b"whole\n".to_vec()));
}

/// A line of 65,536 bytes needs 128 blocks, one of pointers and an inode, which count seven times each, and the eighth of a block for its
/// name. An empty volume of 64 segments has a need of 727, and its limit is 3,008.
fn the_oldest_file_of_a_recorder_goes(ground: &mut impl Ground) {
    let mut volume = ground.format(64, Version::One);
    let other = volume.create("/other").unwrap();
    volume.pwrite(other, 0, b"a").unwrap();
    volume.record_begin(1, 0).unwrap();
    for _ in 0..40 {
        volume.record_line("2026-01-01", [b'a'; 65_535]).unwrap();
    }
    let names: Vec<_> = volume.readdir("/").unwrap().into_iter().map(|entry| entry.name).collect();
    let wanted = (26..=40).map(|number| format!("{number:08}-2026-01-01").into_bytes());
    assert_eq!(names, wanted.chain([b"other".to_vec()]).collect::<Vec<_>>());
}
