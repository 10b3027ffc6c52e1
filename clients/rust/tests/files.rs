//! Files with a position, beside bytes in memory that the standard library gives one.
mod common;

use common::{Ground, refusal};
use pansuyog::{Error, Handle, Version};
use std::io::{self, BufRead, BufReader, BufWriter, Cursor, ErrorKind, Read, Seek, SeekFrom, Write};

over_both! {
    a_file_behaves_as_bytes_in_memory
    buffers_and_copies_stand_over_a_file
    a_file_is_cut_and_saved
    a_refusal_is_an_error_of_its_kind
}

/// Numbers that look drawn, by a generator of Marsaglia's.
struct Dice(u64);

impl Dice {
    fn below(&mut self, bound: u64) -> u64 {
        self.0 ^= self.0 << 13;
        self.0 ^= self.0 >> 7;
        self.0 ^= self.0 << 17;
        self.0 % bound
    }
}

/// Does one thing to a file or to bytes in memory, and tells what it answers and what was read.
fn step<F: Read + Write + Seek>(file: &mut F, kind: u64, size: usize) -> (String, Vec<u8>) {
    let mut bytes = vec![0; size];
    let told = match kind {
        0 => file.read(&mut bytes).map(|count| count as u64),
        1 | 2 => {
            // A write of nothing behind the end makes bytes in memory longer, and no file.
            let written: Vec<u8> = (0..size.max(1)).map(|at| (at % 251) as u8).collect();
            file.write(&written).map(|count| count as u64)
        }
        3 => file.seek(SeekFrom::Start(size as u64)),
        4 => file.seek(SeekFrom::Current(-(size as i64) / 2)),
        5 => file.seek(SeekFrom::End(-(size as i64) / 2)),
        6 => file.read_to_end(&mut bytes).map(|count| count as u64),
        _ => file.seek(SeekFrom::End(size as i64)),
    };
    let position = file.stream_position().unwrap();
    (format!("{:?} {position}", told.map_err(|error| error.kind())), bytes)
}

fn a_file_behaves_as_bytes_in_memory(ground: &mut impl Ground) {
    const SIZES: [usize; 7] = [0, 1, 511, 512, 513, 30_000, 65_536];
    let mut volume = ground.format(64, Version::Two);
    let handle = volume.create("/f").unwrap();
    let (mut dice, mut model) = (Dice(88_172_645_463_325_252), Cursor::new(Vec::new()));
    let mut file = volume.file(handle);
    for _ in 0..300 {
        let (kind, size) = (dice.below(8), SIZES[dice.below(7) as usize]);
        assert_eq!(step(&mut file, kind, size), step(&mut model, kind, size));
        if model.get_ref().len() > 400_000 {
            file.set_len(1_000).unwrap();
            model.get_mut().truncate(1_000);
        }
    }
    let mut bytes = Vec::new();
    volume.file(handle).read_to_end(&mut bytes).unwrap();
    assert_eq!(bytes, model.into_inner());
}

fn buffers_and_copies_stand_over_a_file(ground: &mut impl Ground) {
    let mut volume = ground.format(64, Version::Two);
    let handle = volume.create("/log").unwrap();
    let lines: Vec<String> = (0..9_000).map(|number| format!("line {number}")).collect();
    let mut writer = BufWriter::new(volume.file(handle));
    for line in &lines {
        writeln!(writer, "{line}").unwrap();
    }
    writer.flush().unwrap();
    drop(writer);
    let read: Vec<String> = BufReader::new(volume.file(handle)).lines().map(Result::unwrap).collect();
    assert_eq!(read, lines);
    let (mut copied, all) = (Vec::new(), lines.join("\n") + "\n");
    assert_eq!(io::copy(&mut volume.file(handle), &mut copied).unwrap(), all.len() as u64);
    assert_eq!(copied, all.as_bytes());
    // Many times the longest write.
    let (second, long) = (volume.create("/long").unwrap(), vec![7; 300_000]);
    volume.file(second).write_all(&long).unwrap();
    assert_eq!(volume.stat("/long").unwrap().size, 300_000);
}

fn a_file_is_cut_and_saved(ground: &mut impl Ground) {
    let mut volume = ground.format(64, Version::Two);
    let handle = volume.create("/f").unwrap();
    let mut file = volume.file(handle);
    file.write_all(b"kept and cut").unwrap();
    file.set_len(4).unwrap();
    assert_eq!(file.seek(SeekFrom::End(0)).unwrap(), 4);
    file.sync_all().unwrap();
    file.write_all(b" and lost").unwrap();
    let mut volume = ground.stopped(volume);
    let handle = volume.open("/f").unwrap();
    let mut text = String::new();
    volume.file(handle).read_to_string(&mut text).unwrap();
    assert_eq!(text, "kept");
}

fn a_refusal_is_an_error_of_its_kind(ground: &mut impl Ground) {
    let mut volume = ground.format(64, Version::Two);
    let handle = volume.create("/f").unwrap();
    let mut file = volume.file(handle);
    assert_eq!(file.seek(SeekFrom::Current(-1)).unwrap_err().kind(), ErrorKind::InvalidInput);
    file.seek(SeekFrom::Start(8_511_488)).unwrap();
    let error = file.write(b"x").unwrap_err();
    assert_eq!(error.kind(), ErrorKind::FileTooLarge);
    let within = error.into_inner().unwrap().downcast::<Error>().unwrap();
    assert!(matches!(*within, Error::FileTooBig));
    file.rewind().unwrap();
    assert_eq!(file.write_all(&vec![7; 1_300_000]).unwrap_err().kind(), ErrorKind::StorageFull);
    // What was written before stands.
    assert!(file.stream_position().unwrap() > 0);
    assert_eq!(refusal(volume.mkdir("/f")), "Exist");
    volume.close(handle).unwrap();
    assert_eq!(volume.file(handle).read(&mut [0]).unwrap_err().kind(), ErrorKind::InvalidInput);
    assert_eq!(volume.file(Handle(9)).sync_all().unwrap_err().kind(), ErrorKind::InvalidInput);
    assert_eq!(io::Error::from(volume.open("/none").unwrap_err()).kind(), ErrorKind::NotFound);
}
