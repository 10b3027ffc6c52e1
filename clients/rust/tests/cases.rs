//! The scripts of `crates/lfs_trials/data`, line by line as calls of this crate. What they are to answer stands beside them.
mod common;

use common::Ground;
use pansuyog::{Backend, Error, Handle, Kind, Shape, Stat, Version, Volume};
use std::fs;
use std::path::{Path, PathBuf};
use std::str::from_utf8;

type Result<T> = std::result::Result<T, Error>;

over_both! {
    each_script_has_its_replies
}

fn unhex(text: &str) -> Vec<u8> {
    let digits = text.trim_start_matches('-').as_bytes();
    digits
        .chunks(2)
        .map(|it| u8::from_str_radix(from_utf8(it).unwrap(), 16).unwrap())
        .collect()
}

fn hex(bytes: &[u8]) -> String {
    if bytes.is_empty() {
        return "-".to_string();
    }
    bytes.iter().map(|it| format!("{it:02x}")).collect()
}

/// The bytes of an escaped word.
fn unescape(word: &str) -> Vec<u8> {
    if word == "\\" {
        return Vec::new();
    }
    let mut parts = word.split('\\');
    let mut bytes = parts.next().unwrap().as_bytes().to_vec();
    for part in parts {
        bytes.push(u8::from_str_radix(&part[..2], 16).unwrap());
        bytes.extend(&part.as_bytes()[2..]);
    }
    bytes
}

fn escape(bytes: &[u8]) -> String {
    if bytes.is_empty() {
        return "\\".to_string();
    }
    let spelt = |it: &u8| match it {
        0x21..=0x7e if *it != b'\\' => char::from(*it).to_string(),
        _ => format!("\\{it:02x}"),
    };
    bytes.iter().map(spelt).collect()
}

fn kind_of(kind: Kind) -> &'static str {
    match kind {
        Kind::File => "file",
        Kind::Directory => "dir",
        Kind::Link => "link",
    }
}

fn told(stat: &Stat) -> String {
    format!("ok {} {} {} {}", stat.number, kind_of(stat.kind), stat.links, stat.size)
}

/// A volume of which lines are asked.
struct Script<D: Backend> {
    volume: Volume<D>,
}

impl<D: Backend> Script<D> {
    fn reply(&mut self, line: &str) -> String {
        self.answer(line).unwrap_or_else(|error| format!("err {error:?}"))
    }

    fn answer(&mut self, line: &str) -> Result<String> {
        let words: Vec<&str> = line.split(' ').collect();
        let path = |place: usize| unescape(words[place]);
        let number = |place: usize| words[place].parse::<u64>().unwrap();
        let handle = || Handle(words[1].parse().unwrap());
        let volume = &mut self.volume;
        match words[0] {
            "create" => return Ok(format!("ok {}", volume.create(path(1))?.0)),
            "open" => return Ok(format!("ok {}", volume.open(path(1))?.0)),
            "pread" => {
                let mut bytes = vec![0; number(3).min(70_000) as usize];
                let count = volume.pread(handle(), number(2), &mut bytes)?;
                return Ok(format!("ok {}", hex(&bytes[..count])));
            }
            "pwrite" => return Ok(format!("ok {}", volume.pwrite(handle(), number(2), &unhex(words[3]))?)),
            "fill" => {
                let bytes = vec![number(4) as u8; number(3).min(70_000) as usize];
                return Ok(format!("ok {}", volume.pwrite(handle(), number(2), &bytes)?));
            }
            "readlink" => return Ok(format!("ok {}", escape(&volume.readlink(path(1))?))),
            "stat" => return Ok(told(&volume.stat(path(1))?)),
            "lstat" => return Ok(told(&volume.lstat(path(1))?)),
            "readdir" => return self.listing(&path(1)),
            "space" => {
                let space = volume.space()?;
                return Ok(format!(
                    "ok {} {} {} {}",
                    space.data_blocks, space.meta_blocks, space.need, space.limit
                ));
            }
            "version" => return Ok(format!("ok {}", volume.version()? as u32)),
            "tree" => return self.tree(),
            "truncate" => volume.truncate(handle(), number(2))?,
            "close" => volume.close(handle())?,
            "fsync" => volume.fsync(handle())?,
            "mkdir" => volume.mkdir(path(1))?,
            "rmdir" => volume.rmdir(path(1))?,
            "unlink" => volume.unlink(path(1))?,
            "link" => volume.link(path(1), path(2))?,
            "rename" => volume.rename(path(1), path(2))?,
            "symlink" => volume.symlink(path(1), path(2))?,
            "widen" => volume.widen(path(1))?,
            "sync" => volume.sync()?,
            "clean" => volume.clean()?,
            "upgrade" => volume.upgrade()?,
            word => panic!("no call has the word {word}"),
        }
        Ok("ok".to_string())
    }

    fn listing(&mut self, path: &[u8]) -> Result<String> {
        let entries = self.volume.readdir(path)?;
        let rows = entries
            .iter()
            .map(|it| format!("\n{} {} {}", escape(&it.name), it.number, kind_of(it.kind)));
        Ok(format!("ok {}{}", entries.len(), rows.collect::<String>()))
    }

    fn tree(&mut self) -> Result<String> {
        let mut rows = Vec::new();
        self.walk(b"", &mut rows)?;
        rows.sort();
        let lines: String = rows.iter().map(|(_, _, line)| format!("\n{line}")).collect();
        Ok(format!("ok {}{lines}", rows.len()))
    }

    /// Puts a row for each entry below a directory behind those that are there.
    fn walk(&mut self, path: &[u8], rows: &mut Vec<(u32, Vec<u8>, String)>) -> Result<()> {
        let number = self.volume.stat([path, b"/"].concat())?.number;
        for entry in self.volume.readdir([path, b"/"].concat())? {
            let below = [path, b"/", &entry.name].concat();
            let head = self.head(&below, entry.kind)?;
            let stat = told(&self.volume.lstat(&below)?);
            let [_, object, kind, links, size] = stat.split(' ').collect::<Vec<_>>()[..] else {
                panic!("{stat}")
            };
            let line = format!("{number} {} {kind} {object} {links} {size} {head}", escape(&entry.name));
            rows.push((number, entry.name, line));
            if entry.kind == Kind::Directory {
                self.walk(&below, rows)?;
            }
        }
        Ok(())
    }

    fn head(&mut self, path: &[u8], kind: Kind) -> Result<String> {
        match kind {
            Kind::Directory => Ok("-".to_string()),
            Kind::Link => Ok(escape(&self.volume.readlink(path)?)),
            Kind::File => {
                let handle = self.volume.open(path)?;
                let mut bytes = [0; 16];
                let count = self.volume.pread(handle, 0, &mut bytes)?;
                self.volume.close(handle)?;
                Ok(hex(&bytes[..count]))
            }
        }
    }
}

fn text_of(path: &Path, extension: &str) -> Option<String> {
    fs::read_to_string(path.with_extension(extension)).ok()
}

/// The first line in which the replies to a script differ from those that it is to have, or the tree that a mount finds.
fn difference(path: &Path, ground: &mut impl Ground) -> Option<String> {
    let name = path.file_name().unwrap().to_str().unwrap();
    let segments = if name.contains(".1024.") { 1024 } else { 64 };
    let shape = match name {
        _ if name.contains(".v2.") => Shape::new(segments, Version::Two),
        _ if name.contains(".v3.") => Shape {
            unit: 8,
            ..Shape::new(segments, Version::Three)
        },
        _ => Shape::new(segments, Version::One),
    };
    let mut script = Script {
        volume: ground.format_with(shape),
    };
    let (lines, replies) = (text_of(path, "script").unwrap(), text_of(path, "replies").unwrap());
    let mut wanted = replies.lines();
    for (number, line) in (1..).zip(lines.lines()) {
        for found in script.reply(line).lines() {
            let reply = wanted.next();
            if reply != Some(found) {
                return Some(format!("{name}: line {number}: {reply:?} is wanted, and not {found:?}"));
            }
        }
    }
    if let Some(more) = wanted.next() {
        return Some(format!("{name}: {more:?} is wanted behind the last line"));
    }
    let mut script = Script {
        volume: ground.stopped(script.volume),
    };
    let tree = text_of(path, "tree")?;
    let found = script.reply("tree");
    (found.trim_end() != tree.trim_end()).then(|| format!("{name}: the tree is {found}"))
}

/// The scripts that have no bad line, which is a matter of the language alone.
fn scripts() -> Vec<PathBuf> {
    let folder = Path::new(env!("CARGO_MANIFEST_DIR")).join("../../crates/lfs_trials/data");
    let files = fs::read_dir(folder).unwrap().map(|it| it.unwrap().path());
    let has_bad_line = |it: &PathBuf| text_of(it, "replies").unwrap().contains("bad ");
    files
        .filter(|it| it.extension().is_some_and(|it| it == "script") && !has_bad_line(it))
        .collect()
}

fn each_script_has_its_replies(ground: &mut impl Ground) {
    let scripts = scripts();
    assert!(scripts.len() >= 68);
    let differences: Vec<String> = scripts.iter().filter_map(|it| difference(it, ground)).collect();
    assert_eq!(differences, Vec::<String>::new());
}
