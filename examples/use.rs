// Two runs over the same taxa, read side by side from two files, then compared. `Collection` is safe: copy it, and add the calls you need.
//
//     rustc --edition 2021 -O -L native=target/staticlib examples/use.rs
//     ./use 'A B C D E' FILE FILE
use std::io::Read;

/// The calls of include/jakkuhyeon.h that are used here: a slice is a pointer and a number of elements.
mod jakku {
    #[repr(C)]
    pub struct Number {
        pub value: usize,
        pub refusal: u32,
    }

    #[repr(C)]
    pub struct Fed {
        pub taken: usize,
        pub tree: usize,
        pub refusal: u32,
        pub accepted: bool,
    }

    #[link(name = "clib", kind = "static")]
    #[rustfmt::skip]
    extern "C" {
        pub fn jakku_size(taxa: u32, lanes: u32, tree_room: u32, split_room: u32, places: u32, kept: bool) -> Number;
        pub fn jakku_open(
            s: *mut u8, s_len: usize, taxa: u32, lanes: u32, tree_room: u32, split_room: u32, places: u32, kept: bool,
            list: *const u8, list_len: usize, first: *const u64, first_len: usize, second: *const u64, second_len: usize,
        ) -> u32;
        pub fn jakku_feed(s: *mut u8, s_len: usize, l: usize, piece: *const u8, piece_len: usize) -> Fed;
        pub fn jakku_close(s: *mut u8, s_len: usize, l: usize) -> u32;
        pub fn jakku_tree_count(s: *const u8, s_len: usize) -> Number;
        pub fn jakku_split_count(s: *const u8, s_len: usize) -> Number;
        pub fn jakku_doubled(s: *const u8, s_len: usize, a: usize, b: usize) -> Number;
        pub fn jakku_majority(s: *const u8, s_len: usize, out: *mut u8, out_len: usize) -> Number;
        pub fn jakku_reason(k: u32, out: *mut u8, out_len: usize) -> Number;
    }
}

/// Why a call refused: a number of the table in include/jakkuhyeon.h. It prints as its sentence.
#[derive(Clone, Copy, Debug)]
pub struct Refusal(u32);

impl std::fmt::Display for Refusal {
    fn fmt(&self, f: &mut std::fmt::Formatter) -> std::fmt::Result {
        let mut out = [0; 64];
        let n = unsafe { jakku::jakku_reason(self.0, out.as_mut_ptr(), out.len()) };
        f.write_str(&String::from_utf8_lossy(&out[..n.value]))
    }
}

impl std::error::Error for Refusal {}

fn number(n: jakku::Number) -> Result<usize, Refusal> {
    if n.refusal == 0 { Ok(n.value) } else { Err(Refusal(n.refusal)) }
}

fn done(refusal: u32) -> Result<(), Refusal> {
    if refusal == 0 { Ok(()) } else { Err(Refusal(refusal)) }
}

/// A collection in memory of its own. A call that changes it takes `&mut self`, so that there is one caller at a time.
pub struct Collection(Vec<u8>);

impl Collection {
    /// With `lanes` lanes, room for so many trees and different splits, and without lengths. The constants for each taxon, by which splits are
    /// found again, may be any numbers.
    pub fn open(names: &str, lanes: u32, trees: u32, splits: u32) -> Result<Self, Refusal> {
        let taxa = 1 + names.split('\'').step_by(2).map(|unquoted| unquoted.matches(' ').count()).sum::<usize>() as u32;
        let places = splits.saturating_mul(2);
        let mut s = vec![0; number(unsafe { jakku::jakku_size(taxa, lanes, trees, splits, places, false) })?];
        let second: Vec<u64> = (1..=taxa as u64).map(|i| i.wrapping_mul(0x9e37_79b9_7f4a_7c15)).collect();
        let first: Vec<u64> = second.iter().map(|c| (c >> 32) % places as u64).collect();
        done(unsafe {
            jakku::jakku_open(
                s.as_mut_ptr(), s.len(), taxa, lanes, trees, splits, places, false,
                names.as_ptr(), names.len(), first.as_ptr(), first.len(), second.as_ptr(), second.len(),
            )
        })?;
        Ok(Collection(s))
    }

    /// How many bytes were taken, and the verdict, if a text ended in them: the number of the tree, or why it is refused.
    pub fn feed(&mut self, lane: usize, piece: &[u8]) -> (usize, Option<Result<usize, Refusal>>) {
        let s = &mut self.0;
        let f = unsafe { jakku::jakku_feed(s.as_mut_ptr(), s.len(), lane, piece.as_ptr(), piece.len()) };
        let verdict = match (f.refusal, f.accepted) {
            (0, false) => None,
            (0, true) => Some(Ok(f.tree)),
            (refusal, _) => Some(Err(Refusal(refusal))),
        };
        (f.taken, verdict)
    }

    pub fn close(&mut self, lane: usize) -> Result<(), Refusal> {
        done(unsafe { jakku::jakku_close(self.0.as_mut_ptr(), self.0.len(), lane) })
    }

    pub fn trees(&self) -> Result<usize, Refusal> {
        number(unsafe { jakku::jakku_tree_count(self.0.as_ptr(), self.0.len()) })
    }

    pub fn splits(&self) -> Result<usize, Refusal> {
        number(unsafe { jakku::jakku_split_count(self.0.as_ptr(), self.0.len()) })
    }

    /// The doubled distance of two trees.
    pub fn distance(&self, a: usize, b: usize) -> Result<usize, Refusal> {
        number(unsafe { jakku::jakku_doubled(self.0.as_ptr(), self.0.len(), a, b) })
    }

    /// The majority consensus tree.
    pub fn majority(&self) -> Result<String, Refusal> {
        let mut out = vec![0; 4608];
        let n = number(unsafe { jakku::jakku_majority(self.0.as_ptr(), self.0.len(), out.as_mut_ptr(), out.len()) })?;
        Ok(String::from_utf8_lossy(&out[..n]).into_owned())
    }
}

/// Feeds a piece to the lane of a run: a text may go on in the next piece, and a piece may end several texts.
fn feed(c: &mut Collection, run: usize, mut piece: &[u8]) {
    while !piece.is_empty() {
        let (taken, verdict) = c.feed(run, piece);
        match verdict {
            Some(Ok(tree)) => println!("run {run}: tree {tree}"),
            Some(Err(refusal)) => println!("run {run}: refused, {refusal}"),
            None => {}
        }
        if taken == 0 {
            return;
        }
        piece = &piece[taken..];
    }
}

fn run(names: &str, one: &str, other: &str) -> Result<(), Box<dyn std::error::Error>> {
    let mut c = Collection::open(names, 2, 100, 256)?;

    // A piece of one run, a piece of the other, and so on: pieces may be cut anywhere.
    let mut runs = [std::fs::File::open(one)?, std::fs::File::open(other)?];
    let mut read = [1, 1];
    while read != [0, 0] {
        for i in 0..2 {
            let mut piece = Vec::new();
            read[i] = runs[i].by_ref().take(7).read_to_end(&mut piece)?;
            feed(&mut c, i, &piece);
        }
    }
    for i in 0..2 {
        if let Err(refusal) = c.close(i) {
            println!("run {i}, at its end: refused, {refusal}");
        }
    }

    // Counts, distances, consensus.
    let trees = c.trees()?;
    println!("{trees} trees, {} splits", c.splits()?);
    for i in 1..trees {
        println!("trees 0 and {i}: {} apart", c.distance(0, i)?);
    }
    match c.majority() {
        Ok(text) => println!("majority {text}"),
        Err(refusal) => println!("no consensus: {refusal}"),
    }
    Ok(())
}

fn main() {
    let words: Vec<String> = std::env::args().collect();
    let [_, names, one, other] = &words[..] else { std::process::exit(2) };
    if let Err(why) = run(names, one, other) {
        eprintln!("{why}");
        std::process::exit(1);
    }
}
