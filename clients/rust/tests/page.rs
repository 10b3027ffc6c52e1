//! The program of `docs/LIBRARY.md` stands there word for word, and keeps a record a run.
use std::process::{self, Command};
use std::{env, fs};

#[test]
fn the_program_of_the_page_keeps_records() {
    let page = fs::read_to_string(concat!(env!("CARGO_MANIFEST_DIR"), "/../../docs/LIBRARY.md")).unwrap();
    assert!(page.contains(&format!("```rust\n{}```\n", include_str!("../examples/append.rs"))));
    let append = env::current_exe().unwrap().ancestors().nth(2).unwrap().join("examples/append");
    let image = env::temp_dir().join(format!("pansuyog-{}-page.img", process::id()));
    let shown = |record: &str| Command::new(&append).arg(&image).arg(record).output().unwrap().stdout;
    assert_eq!(shown("one"), b"one\n");
    assert_eq!(shown("two"), b"one\ntwo\n");
    fs::remove_file(&image).unwrap();
}
