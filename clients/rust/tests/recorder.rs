//! An hour's recorder in compressed time: a record for each second, saved by itself, and about once a minute the recorder is killed.
use std::env;
use std::fs;
use std::hash::{BuildHasher, RandomState};
use std::io::{BufRead, BufReader};
use std::path::{Path, PathBuf};
use std::process::{self, Command, Stdio};
use std::thread::sleep;
use std::time::Duration;

/// How many records there are to be. `./library --gate` has a part of the hour.
fn wanted() -> u64 {
    env::var("PANSUYOG_RECORDS").map_or(3_600, |it| it.parse().unwrap())
}

/// A random number below another.
fn chance(below: u64) -> u64 {
    RandomState::new().hash_one(0) % below
}

/// The program that `cargo test` builds beside the tests.
fn recorder() -> PathBuf {
    env::current_exe().unwrap().ancestors().nth(2).unwrap().join("examples/recorder")
}

/// Lets the recorder append until it has told of some records, and kills it a few milliseconds later: how many records it had told of.
fn killed(image: &Path, told: u64) -> u64 {
    let mut child = Command::new(recorder())
        .arg(image)
        .arg("append")
        .stdout(Stdio::piped())
        .spawn()
        .unwrap();
    let mut lines = BufReader::new(child.stdout.take().unwrap()).lines();
    for _ in 0..=chance(90) {
        lines.next().unwrap().unwrap();
    }
    sleep(Duration::from_micros(chance(20_000)));
    child.kill().unwrap();
    assert!(!child.wait().unwrap().success());
    let last = lines.map(|it| it.unwrap().parse::<u64>().unwrap()).last();
    last.map_or(told, |number| number + 1)
}

/// How many records a mount finds, each whole.
fn counted(image: &Path) -> u64 {
    let ran = Command::new(recorder()).arg(image).arg("count").output().unwrap();
    assert!(ran.status.success(), "{}", String::from_utf8_lossy(&ran.stderr));
    String::from_utf8(ran.stdout).unwrap().trim().parse().unwrap()
}

#[test]
fn each_record_that_was_told_of_is_there_after_each_kill() {
    let image = env::temp_dir().join(format!("pansuyog-{}-recorder.img", process::id()));
    let (mut told, mut kills) = (0, 0);
    while told < wanted() {
        told = told.max(killed(&image, told));
        let found = counted(&image);
        assert!(found >= told, "{told} records were told of, and {found} are there");
        kills += 1;
    }
    fs::remove_file(&image).unwrap();
    println!("{kills} kills, {told} records told of, all there");
}
