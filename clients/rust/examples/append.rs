//! Puts a record behind those of /log, in a volume in a file, and shows them all. Where no file is the volume is made.
//!
//!     append FILE RECORD
use pansuyog::{Error, Handle, Version, Volume};
use std::env;
use std::io::{self, Write};
use std::process::ExitCode;

const SEGMENTS: u32 = 64;

/// Opens and locks a volume that is there, or a new one. Nothing else that is there is changed.
fn opened(path: &str) -> Result<Volume, Error> {
    match pansuyog::make(path, SEGMENTS, Version::Two) {
        Ok(()) | Err(Error::Exist) => Volume::mount(path),
        Err(error) => Err(error),
    }
}

/// Once it is `Ok` no loss of power takes the record away.
fn append(volume: &mut Volume, log: Handle, record: &str) -> Result<(), Error> {
    let end = volume.stat("/log")?.size;
    volume.pwrite(log, end, format!("{record}\n").as_bytes())?;
    volume.sync()
}

fn show(volume: &mut Volume, log: Handle) -> Result<(), Error> {
    let (mut bytes, mut at) = (vec![0; 65_536], 0);
    loop {
        let count = volume.pread(log, at, &mut bytes)?;
        if count == 0 {
            return Ok(());
        }
        io::stdout().write_all(&bytes[..count])?;
        at += count as u64;
    }
}

fn run(path: &str, record: &str) -> Result<(), Error> {
    let mut volume = opened(path)?;
    let log = match volume.open("/log") {
        Err(Error::NoEntry) => volume.create("/log")?,
        opened => opened?,
    };
    append(&mut volume, log, record)?;
    show(&mut volume, log)
}

fn main() -> ExitCode {
    let words: Vec<String> = env::args().collect();
    let [_, path, record] = &words[..] else {
        eprintln!("usage: append FILE RECORD");
        return ExitCode::from(2);
    };
    match run(path, record) {
        Ok(()) => ExitCode::SUCCESS,
        Err(error) => {
            eprintln!("{path}: {error}");
            ExitCode::FAILURE
        }
    }
}
