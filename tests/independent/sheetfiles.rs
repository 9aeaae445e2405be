//! The files of a run of `treesheet`, and what it leaves behind.

use crate::treesheet::{treesheet, Done, Files};
use std::ffi::{OsStr, OsString};
use std::io::{Error, Read, Write};
use std::os::unix::ffi::{OsStrExt, OsStringExt};

/// Does what a run of `treesheet` with these words does, and answers the exit status.
pub fn run(words: Vec<OsString>) -> i32 {
    let words: Vec<Vec<u8>> = words.into_iter().map(OsString::into_vec).collect();
    let Done { status, printed, told, matrix } = treesheet(&words, &mut System);
    tell(&told);
    if let Some((path, bytes)) = matrix {
        if save(&path, &bytes).is_err() {
            tell(&[b"treesheet: writing ", &path[..], b" failed\n"].concat());
            return 2;
        }
    }
    let mut out = std::io::stdout().lock();
    if out.write_all(&printed).and_then(|()| out.flush()).is_err() {
        tell(b"treesheet: writing failed\n");
        return 2;
    }
    status
}

struct System;

impl Files for System {
    fn read(&mut self, name: &[u8], may_be_input: bool) -> Result<Vec<u8>, String> {
        if may_be_input && name == b"-" {
            let mut bytes = Vec::new();
            return std::io::stdin().lock().read_to_end(&mut bytes).map(|_| bytes).map_err(in_words);
        }
        std::fs::read(OsStr::from_bytes(name)).map_err(in_words)
    }
}

/// The system's words for a fault, without its number.
fn in_words(fault: Error) -> String {
    fault.to_string().split(" (os error").next().unwrap_or_default().to_string()
}

/// Written beside its place first; what is left there by a fault is removed.
fn save(path: &[u8], bytes: &[u8]) -> Result<(), Error> {
    let part = [path, b".part"].concat();
    let part = OsStr::from_bytes(&part);
    std::fs::File::create(part)?;
    let saved = std::fs::write(part, bytes).and_then(|()| std::fs::rename(part, OsStr::from_bytes(path)));
    if saved.is_err() {
        std::fs::remove_file(part)?;
    }
    saved
}

/// Where nothing can be told, nothing is.
fn tell(bytes: &[u8]) {
    drop(std::io::stderr().lock().write_all(bytes));
}
