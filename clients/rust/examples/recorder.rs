//! A recorder: appends records to a file of a volume and saves each, until it is killed; then says which records are there.
//!
//!     recorder IMAGE append     appends for ever; prints the number of each record once no loss of power takes it away; where no file is
//!                               the volume is made
//!     recorder IMAGE count      prints how many records stand in the file, each whole and in order
use pansuyog::{Error, Handle, Version, Volume};
use std::env;
use std::error;
use std::io::{self, Write};
use std::process::ExitCode;

type Result<T> = std::result::Result<T, Box<dyn error::Error>>;

const SEGMENTS: u32 = 64;
const PATH: &str = "/records";
const RECORD: usize = 64;

/// The bytes of a record: its number in ten digits, and a text that depends on it.
fn record(number: u64) -> Vec<u8> {
    let letter = char::from(b'a' + (number % 26) as u8);
    format!("{number:010} {}\n", letter.to_string().repeat(RECORD - 12)).into_bytes()
}

/// The records' handle, and how many stand there.
fn opened(volume: &mut Volume) -> Result<(Handle, u64)> {
    match volume.open(PATH) {
        Ok(handle) => Ok((handle, volume.stat(PATH)?.size / RECORD as u64)),
        Err(Error::NoEntry) => Ok((volume.create(PATH)?, 0)),
        Err(error) => Err(error.into()),
    }
}

fn append(image: &str) -> Result<()> {
    match pansuyog::make(image, SEGMENTS, Version::Two) {
        Ok(()) | Err(Error::Exist) => {}
        Err(error) => return Err(error.into()),
    }
    let mut volume = Volume::mount(image)?;
    let (handle, first) = opened(&mut volume)?;
    for number in first.. {
        volume.pwrite(handle, RECORD as u64 * number, &record(number))?;
        volume.sync()?;
        writeln!(io::stdout(), "{number}")?;
    }
    Ok(())
}

fn count(image: &str) -> Result<()> {
    let mut volume = Volume::mount_read_only(image)?;
    let (handle, records) = opened(&mut volume)?;
    let mut bytes = [0; RECORD];
    for number in 0..records {
        volume.pread(handle, RECORD as u64 * number, &mut bytes)?;
        if bytes[..] != record(number) {
            return Err(format!("record {number} isn't whole").into());
        }
    }
    writeln!(io::stdout(), "{records}")?;
    Ok(())
}

fn main() -> ExitCode {
    let words: Vec<String> = env::args().collect();
    let (image, outcome) = match &words[..] {
        [_, image, word] if word == "append" => (image, append(image)),
        [_, image, word] if word == "count" => (image, count(image)),
        _ => {
            eprintln!("usage: recorder IMAGE append|count");
            return ExitCode::from(2);
        }
    };
    match outcome {
        Ok(()) => ExitCode::SUCCESS,
        Err(error) => {
            eprintln!("{image}: {error}");
            ExitCode::FAILURE
        }
    }
}
