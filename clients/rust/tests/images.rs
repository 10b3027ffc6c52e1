//! The example programs over images of every kind: `clients/c/tests` has scripts for it, which the example in C has to pass too.
use pansuyog::{Version, Volume};
use std::path::PathBuf;
use std::process::{self, Command};
use std::{env, fs};

/// A program that `cargo test` builds beside the tests.
fn example(name: &str) -> PathBuf {
    env::current_exe().unwrap().ancestors().nth(2).unwrap().join("examples").join(name)
}

fn passes(script: &str, program: &str, word: &str) {
    let script = concat!(env!("CARGO_MANIFEST_DIR"), "/../c/tests/").to_string() + script;
    let status = Command::new(script).arg(example(program)).arg(word).status().unwrap();
    assert!(status.success());
}

#[test]
fn what_is_no_volume_of_ones_own_stays() {
    passes("refused", "append", "record");
    passes("refused", "recorder", "append");
}

#[test]
fn a_volume_is_made_where_nothing_is() {
    passes("made", "append", "");
}

#[test]
fn a_large_volume_keeps_its_files() {
    let image = env::temp_dir().join(format!("pansuyog-{}-large.img", process::id()));
    let mounted = || Volume::mount(&image).unwrap();
    pansuyog::make(&image, 1024, Version::Two).unwrap();
    let mut volume = mounted();
    let handle = volume.create("/kept").unwrap();
    for number in 0..100u8 {
        volume.pwrite(handle, 30_000 * u64::from(number), &[number + 1; 30_000]).unwrap();
    }
    volume.sync().unwrap();
    drop(volume);
    let length = fs::metadata(&image).unwrap().len();
    let ran = Command::new(example("append")).arg(&image).arg("one").output().unwrap();
    assert_eq!(ran.stdout, b"one\n");
    assert_eq!(fs::metadata(&image).unwrap().len(), length);
    let mut volume = mounted();
    assert_eq!(volume.stat("/kept").unwrap().size, 3_000_000);
    let handle = volume.open("/kept").unwrap();
    let mut bytes = [0; 30_000];
    for number in 0..100u8 {
        assert_eq!(volume.pread(handle, 30_000 * u64::from(number), &mut bytes).unwrap(), 30_000);
        assert_eq!(bytes, [number + 1; 30_000]);
    }
    drop(volume);
    fs::remove_file(&image).unwrap();
}
