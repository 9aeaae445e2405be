//! Matrices in PHYLIP's layout by chance, damaged ones, and calls on them.

use crate::maker::Maker;
use crate::phylip::{Rows, MOST_VALUE, NAME_BYTES};
use crate::random::Random;
use crate::words::hex;

/// The most files that are kept for calls behind them, and the most bytes of one.
const MOST_KEPT: usize = 6;
const MOST_KEPT_BYTES: usize = 20_000;
/// The most trees of a matrix that is asked for on the way.
const MOST_TREES_ASKED: usize = 60;

impl Maker {
    /// The collection's matrix in PHYLIP's layout, asked for and kept.
    pub fn phylip(&mut self) -> Vec<u8> {
        self.ask("phylip");
        let file = self.held.phylip(usize::MAX).expect("a buffer of any length");
        keep_phylip(&mut self.phylips, file.clone());
        file
    }

    /// The collection's matrix, and a few calls on it, on those kept from before, by chance and damaged.
    pub fn phylip_calls(&mut self) {
        if self.held.number_of_trees() > MOST_TREES_ASKED {
            return;
        }
        self.phylip();
        for _ in 0..self.random.between(1, 3) {
            let line = some_phylip_line(&mut self.random, &self.phylips);
            self.ask(line);
        }
    }

    /// The collection's matrix read back, and with a damage. The same collections give the same calls.
    pub fn phylip_questions(&mut self) {
        let file = self.phylip();
        let mut other = file.clone();
        damage(&mut Random::new(file.iter().map(|byte| u64::from(*byte)).sum()), &mut other);
        self.read_phylip(&file);
        self.read_phylip(&other);
    }

    pub fn read_phylip(&mut self, file: &[u8]) {
        self.ask(format!("read-phylip {}", hex(file)));
    }
}

/// Short ones alone.
pub fn keep_phylip(kept: &mut Vec<Vec<u8>>, file: Vec<u8>) {
    if file.len() > MOST_KEPT_BYTES {
        return;
    }
    kept.push(file);
    if kept.len() > MOST_KEPT {
        kept.remove(0);
    }
}

/// The last one kept, any that is, or one by chance; damaged now and then.
pub fn some_phylip_line(random: &mut Random, kept: &[Vec<u8>]) -> String {
    let mut file = match (random.below(4), kept) {
        (0 | 1, _) | (_, []) => some_phylip(random),
        (2, _) => random.pick(kept).clone(),
        (_, [.., last]) => last.clone(),
    };
    if random.one_in(3) {
        damage(random, &mut file);
    }
    format!("read-phylip {}", hex(&file))
}

// Matrices as they stand in files

/// The number of trees and the rows, each part by its bytes, without the line ends.
#[derive(Clone)]
pub struct Square {
    pub count: Vec<u8>,
    pub rows: Vec<Row>,
}

/// The name, and each value with what stands before it.
#[derive(Clone)]
pub struct Row {
    pub name: Vec<u8>,
    pub values: Vec<Vec<u8>>,
}

impl Square {
    /// As it is written: names `t0`, `t1` and so on, one space before a value.
    pub fn plain(rows: &Rows) -> Square {
        let row = |(i, row): (usize, &Vec<u64>)| Row {
            name: padded(&format!("t{i}")),
            values: row.iter().map(|value| format!(" {value}").into_bytes()).collect(),
        };
        Square { count: rows.len().to_string().into_bytes(), rows: rows.iter().enumerate().map(row).collect() }
    }

    /// As others may write it: any names, spaces and zeros in front.
    pub fn dressed(random: &mut Random, rows: &Rows) -> Square {
        let row = |random: &mut Random, row: &[u64]| Row {
            name: some_name(random),
            values: row
                .iter()
                .map(|value| [some_spaces(random), some_zeros(random), digits(*value)].concat())
                .collect(),
        };
        let count = [some_zeros(random), digits(rows.len() as u64)].concat();
        Square { count, rows: rows.iter().map(|values| row(random, values)).collect() }
    }

    pub fn bytes(&self) -> Vec<u8> {
        let mut out = [&self.count[..], b"\n"].concat();
        for row in &self.rows {
            out.extend(&row.name);
            row.values.iter().for_each(|value| out.extend(value));
            out.push(b'\n');
        }
        out
    }

    /// The line of the call that reads it.
    pub fn line(&self) -> String {
        format!("read-phylip {}", hex(&self.bytes()))
    }

    /// Another value at a row and column, with one space before it.
    pub fn put(&mut self, row: usize, column: usize, value: u64) {
        self.rows[row].values[column] = [b" ".to_vec(), digits(value)].concat();
    }
}

fn digits(number: u64) -> Vec<u8> {
    number.to_string().into_bytes()
}

pub fn padded(name: &str) -> Vec<u8> {
    format!("{name:<NAME_BYTES$}").into_bytes()
}

/// Digits, spaces, both ends of the range, or any bytes of it.
fn some_name(random: &mut Random) -> Vec<u8> {
    const NAMES: [&str; 9] =
        ["", "t0", "1234567890", " 5 0 0 0 0", "         0", "0         ", "~~~~~~~~~~", "\"a, (b):c;", "Strain 007"];
    match random.below(3) {
        0 => padded(NAMES[random.below(NAMES.len())]),
        _ => (0..NAME_BYTES).map(|_| random.between(32, 126) as u8).collect(),
    }
}

/// One or more.
fn some_spaces(random: &mut Random) -> Vec<u8> {
    vec![b' '; *random.pick(&[1, 1, 1, 2, 3, 20])]
}

/// Mostly none.
fn some_zeros(random: &mut Random) -> Vec<u8> {
    vec![b'0'; *random.pick(&[0, 0, 0, 0, 1, 2, 5, 99])]
}

// By chance

pub fn some_phylip(random: &mut Random) -> Vec<u8> {
    let trees = *random.pick(&[0, 1, 2, 2, 3, 4, 5, 11]);
    let rows = some_rows(random, trees);
    match random.one_in(3) {
        true => Square::plain(&rows).bytes(),
        false => Square::dressed(random, &rows).bytes(),
    }
}

/// Symmetric, and 0 on the diagonal.
pub fn some_rows(random: &mut Random, trees: usize) -> Rows {
    let mut rows = vec![vec![0; trees]; trees];
    for i in 0..trees {
        for j in 0..i {
            let value = some_value(random);
            rows[i][j] = value;
            rows[j][i] = value;
        }
    }
    rows
}

fn some_value(random: &mut Random) -> u64 {
    let any = random.below(MOST_VALUE as usize + 1) as u64;
    *random.pick(&[0, 1, 2, 9, 10, 99, 100, 255, 256, 9_999, 10_000, 32_768, MOST_VALUE - 1, MOST_VALUE, any, any])
}

// Damages

/// Bytes that stand beside those that a matrix may have.
pub const ODD_BYTES: [u8; 17] = [0, 9, 10, 11, 13, 31, 32, b'-', b'.', b'/', b'0', b'9', b':', b'A', 126, 127, 255];

/// Another byte, one more, one less; the file cut or longer; another value; lines exchanged. Some leave it well formed.
pub fn damage(random: &mut Random, file: &mut Vec<u8>) {
    let at = random.below(file.len().max(1)).min(file.len());
    let byte = *random.pick(&ODD_BYTES);
    match random.below(9) {
        0 if at < file.len() => file[at] = byte,
        1 if at < file.len() => drop(file.remove(at)),
        2 => file.insert(at, byte),
        3 => file.truncate(at),
        4 => drop(file.pop()),
        5 => file.extend(*random.pick(&[&b"\n"[..], b" ", b"0", b"0\n", b"t1         0\n"])),
        6 => exchange_lines(random, file),
        7 => change_digit(random, file, b"0123456789"),
        _ => change_digit(random, file, b"00"),
    }
}

/// Any digit becomes one of these.
fn change_digit(random: &mut Random, file: &mut [u8], digits: &[u8]) {
    let places: Vec<usize> = (0..file.len()).filter(|at| file[*at].is_ascii_digit()).collect();
    if !places.is_empty() {
        file[*random.pick(&places)] = *random.pick(digits);
    }
}

fn exchange_lines(random: &mut Random, file: &mut Vec<u8>) {
    let mut lines: Vec<&[u8]> = file.split_inclusive(|byte| *byte == b'\n').collect();
    if !lines.is_empty() {
        let (a, b) = (random.below(lines.len()), random.below(lines.len()));
        lines.swap(a, b);
    }
    *file = lines.concat();
}
