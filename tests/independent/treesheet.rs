//! What the program `treesheet` prints, tells and writes: the release sheet drawn from the trees of many files.
//!
//! Points that its description leaves open are decided here, each at its place; sheetfiles.rs has those about the system.

use crate::collection::{Collection, Verdict};
use crate::labels::{split_outside, written_name};
use crate::nightjob::reason;
use crate::opening::{open, Numbers};
use crate::release::{release, Wanted};

const LANES: u64 = 8;
const TREE_ROOM: u64 = 1024;
const SPLIT_ROOM: u64 = 4096;
const PLACES: u64 = 8192;
/// A piece of Newick texts is so long but for the last one of a file, however the bytes come in: what is withdrawn after a
/// piece makes room for the texts of the next.
const PIECE: usize = 65_536;
/// The longest NEXUS file, and as for `splitfiles` the longest file of names.
const LONGEST: usize = 8_388_608;
const MOST_DROPPED: usize = 1_000_000;
/// What a program can be handed of a word.
const LONGEST_WORD: usize = 4096;

/// How the program is used, one line.
const USE: &str = "treesheet [--matrix FILE] [--splits] [--drop N] [--newick] [--apart NAME] NAMES FILE..\n";

/// What a run comes to.
#[derive(Default)]
pub struct Done {
    pub status: i32,
    pub printed: Vec<u8>,
    pub told: Vec<u8>,
    /// The matrix and the file that it is for. It is written before the sheet is printed: where it cannot be, nothing is.
    pub matrix: Option<(Vec<u8>, Vec<u8>)>,
}

/// Where files come from: the bytes of the one of this name, or why it cannot be read, in the system's words. `-` is
/// standard input where that may be; asked for again it has ended, and so is an empty file.
pub trait Files {
    fn read(&mut self, name: &[u8], may_be_input: bool) -> Result<Vec<u8>, String>;
}

/// What is told of a run that ends where nothing can be done: what was told before, and why. There are no totals then.
type Impossible = Vec<u8>;

pub fn treesheet(words: &[Vec<u8>], files: &mut impl Files) -> Done {
    let sheet = asked(words).ok_or(USE.as_bytes().to_vec()).and_then(|asked| run(&asked, files));
    sheet.unwrap_or_else(|told| Done { status: 2, told, ..Done::default() })
}

fn run(asked: &Asked, files: &mut impl Files) -> Result<Done, Impossible> {
    let collection = opened(asked.names, files)?;
    let apart = asked.apart.map(|name| taxon_called(&collection, name)).transpose()?;
    let mut run = Run { collection, told: Vec::new(), refused: 0, withdrawn: 0 };
    for (k, name) in asked.files.iter().enumerate() {
        // Each file is read in its turn: what was told of those before it has been told.
        match whole(name, true, files) {
            Ok(bytes) => run.take(k, name, &bytes, asked.drop)?,
            Err(why) => return Err([run.told, why].concat()),
        }
    }
    let Run { collection, mut told, refused, withdrawn } = run;
    // The totals are told once all files are read, before anything is written; withdrawn trees are always among them.
    told.extend(line(&format!(
        "{} trees taken, {refused} refused, {withdrawn} withdrawn",
        collection.number_of_trees()
    )));
    let matrix = asked.matrix.map(|path| (path.to_vec(), collection.phylip(usize::MAX).expect("any room")));
    let wanted = Wanted { splits: asked.splits, newick: asked.newick, apart };
    Ok(Done { status: i32::from(refused > 0), printed: release(&collection, refused, &wanted), told, matrix })
}

// Arguments

#[derive(Default)]
struct Asked<'a> {
    matrix: Option<&'a [u8]>,
    splits: bool,
    drop: usize,
    newick: bool,
    apart: Option<&'a [u8]>,
    names: &'a [u8],
    files: Vec<&'a [u8]>,
}

/// None where the words are bad use. Before NAMES a word that begins with `--` is an option, and must be one of the five; the
/// word behind an option that wants one is its value, whatever it is, if it is no longer than can be handed over. All words
/// behind NAMES are files, and there is one or more of them.
fn asked(words: &[Vec<u8>]) -> Option<Asked<'_>> {
    let mut asked = Asked::default();
    let mut seen: Vec<&[u8]> = Vec::new();
    let mut words = words.iter().map(Vec::as_slice).peekable();
    while let Some(option) = words.next_if(|word| word.starts_with(b"--")) {
        let mut value = || words.next().filter(|value| value.len() <= LONGEST_WORD);
        match option {
            _ if seen.contains(&option) => return None,
            b"--splits" => asked.splits = true,
            b"--newick" => asked.newick = true,
            b"--matrix" => asked.matrix = Some(value()?),
            b"--apart" => asked.apart = Some(value()?),
            b"--drop" => asked.drop = number(value()?)?,
            _ => return None,
        }
        seen.push(option);
    }
    asked.names = words.next()?;
    asked.files = words.collect();
    let is_good = !asked.files.is_empty() && !(asked.newick && (asked.splits || asked.apart.is_some()));
    is_good.then_some(asked)
}

/// "Decimal digits, at most 1,000,000": one or more of them, with any number of zeros in front.
fn number(word: &[u8]) -> Option<usize> {
    let add = |sum: usize, digit: &u8| match digit {
        b'0'..=b'9' => Some(10 * sum + usize::from(digit - b'0')).filter(|sum| *sum <= MOST_DROPPED),
        _ => None,
    };
    word.iter().try_fold(0, add).filter(|_| !word.is_empty())
}

// Names

/// The first line has the names, counted as `treesum` counts them. Constants decide nothing here. NAMES is always a file, one
/// of the name `-` too.
fn opened(name: &[u8], files: &mut impl Files) -> Result<Collection, Impossible> {
    let bytes = whole(name, false, files)?;
    if bytes.len() > LONGEST {
        return Err(said(name, "too long"));
    }
    let names = bytes.split(|b| *b == b'\n').next().unwrap_or_default();
    let taxa = split_outside(names, b' ').len() as u64;
    let numbers =
        Numbers { taxa, lanes: LANES, tree_room: TREE_ROOM, split_room: SPLIT_ROOM, places: PLACES, lengths: false };
    let zeros = vec![0; taxa as usize];
    open(numbers, names, &zeros, &zeros, u64::MAX).map(Collection::new).map_err(|k| refusal(name, k))
}

/// "The strain with that name, or else the one that has it as a label"; different names are written differently.
fn taxon_called(collection: &Collection, word: &[u8]) -> Result<u32, Impossible> {
    let names = &collection.opening().names;
    let called = names.iter().position(|name| name == word);
    let labelled = || names.iter().position(|name| written_name(name) == word);
    let none = || [b"treesheet: no strain ", word, b"\n"].concat();
    called.or_else(labelled).map(|at| at as u32).ok_or_else(none)
}

// Files

/// The bytes of a file. A name that cannot be handed over is not told, as by `splitfiles`.
fn whole(name: &[u8], may_be_input: bool, files: &mut impl Files) -> Result<Vec<u8>, Impossible> {
    if name.len() > LONGEST_WORD {
        return Err(said(b"treesheet: a name", "File name too long"));
    }
    files.read(name, may_be_input).map_err(|why| said(name, &why))
}

struct Run {
    collection: Collection,
    told: Vec<u8>,
    refused: u64,
    withdrawn: u64,
}

impl Run {
    /// Takes the trees of file k, and withdraws the first ones again.
    fn take(&mut self, k: usize, name: &[u8], bytes: &[u8], drop: usize) -> Result<(), Impossible> {
        if !bytes.starts_with(b"#NEXUS") {
            self.take_texts(k as u64 % LANES, name, bytes, drop);
        } else if bytes.len() > LONGEST {
            return Err([&self.told[..], &said(name, "too long")].concat());
        } else {
            self.take_nexus(name, bytes, drop);
        }
        Ok(())
    }

    /// A file that is refused is told, and the next ones are taken.
    fn take_nexus(&mut self, name: &[u8], bytes: &[u8], drop: usize) {
        match self.collection.nexus(bytes, usize::MAX) {
            Ok(verdicts) => self.judged(name, 0, &verdicts, drop),
            Err(k) => self.refuse(name, k),
        }
    }

    /// A refused closing is the verdict on the next text.
    fn take_texts(&mut self, lane: u64, name: &[u8], bytes: &[u8], drop: usize) {
        let mut before = 0;
        for piece in bytes.chunks(PIECE) {
            let verdicts = self.collection.batch(lane, piece, usize::MAX).expect("a lane and room").verdicts;
            self.judged(name, before, &verdicts, drop);
            before += verdicts.len();
        }
        if let Err(k) = self.collection.close(lane) {
            self.judged(name, before, &[Err(k)], drop);
        }
    }

    /// The verdicts on texts of a file with so many before them: refusals are told, and what was accepted of the file's first
    /// texts is withdrawn, the last one first, as the others keep their numbers then.
    fn judged(&mut self, name: &[u8], before: usize, verdicts: &[Verdict], drop: usize) {
        for (i, verdict) in verdicts.iter().enumerate() {
            if let Err(k) = verdict {
                self.refuse(&[name, format!(", tree {}", before + i + 1).as_bytes()].concat(), *k);
            }
        }
        let first = verdicts.iter().take(drop.saturating_sub(before));
        for tree in first.flatten().rev() {
            self.collection.withdraw(*tree as u64).expect("an accepted tree");
            self.withdrawn += 1;
        }
    }

    fn refuse(&mut self, name: &[u8], k: u32) {
        self.told.extend(refusal(name, k));
        self.refused += 1;
    }
}

// Lines that are told

fn line(text: &str) -> Vec<u8> {
    format!("{text}\n").into_bytes()
}

fn said(name: &[u8], what: &str) -> Vec<u8> {
    [name, b": ", &line(what)].concat()
}

fn refusal(name: &[u8], k: u32) -> Vec<u8> {
    said(name, &format!("refused {k}, {}", reason(k)))
}
