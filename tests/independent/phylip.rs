//! Distance matrices in PHYLIP's square layout, of entry 2026-07: "a line with the number of trees, then for each a name
//! padded with spaces to ten, and its values."

pub const NAME_BYTES: usize = 10;
/// "0 to 1,024 trees", and "values up to 65,535".
pub const MOST_TREES: u64 = 1024;
pub const MOST_VALUE: u64 = 65_535;

/// A row's values for each tree.
pub type Rows = Vec<Vec<u64>>;

/// "We write names `t0`, `t1` and so on, and one space before each doubled distance."
pub fn write(rows: &Rows) -> Vec<u8> {
    let mut out = format!("{}\n", rows.len());
    for (i, row) in rows.iter().enumerate() {
        let name = format!("t{i}");
        out.push_str(&format!("{name:<NAME_BYTES$}"));
        row.iter().for_each(|value| out.push_str(&format!(" {value}")));
        out.push('\n');
    }
    out.into_bytes()
}

/// 24, then 25.
pub fn read(file: &[u8]) -> Result<Rows, u32> {
    let rows = well_formed(file).ok_or(24u32)?;
    let t = rows.len();
    let alike = (0..t).all(|i| rows[i][i] == 0 && (0..i).all(|j| rows[i][j] == rows[j][i]));
    if alike {
        Ok(rows)
    } else {
        Err(25)
    }
}

/// "One line a row. Every line ends with LF", the last one too; there are as many rows as trees, and nothing behind.
fn well_formed(file: &[u8]) -> Option<Rows> {
    let lines: Vec<&[u8]> = file.strip_suffix(b"\n")?.split(|byte| *byte == b'\n').collect();
    let (first, rest) = lines.split_first()?;
    let trees = number_to(first, MOST_TREES)? as usize;
    if rest.len() != trees {
        return None;
    }
    rest.iter().map(|line| row(line, trees)).collect()
}

/// "Names of any ten bytes from 32 to 126", then so many values.
fn row(line: &[u8], trees: usize) -> Option<Vec<u64>> {
    let (name, values) = line.split_at_checked(NAME_BYTES)?;
    let named = name.iter().all(|byte| (32..=126).contains(byte));
    values_of(values).filter(|values| named && values.len() == trees)
}

/// "One space or more before a value": parted at each space, a word is a value, and an empty one stands before one of
/// several spaces. There is none at the line's end.
fn values_of(text: &[u8]) -> Option<Vec<u64>> {
    let mut words = text.split(|byte| *byte == b' ');
    if !words.next()?.is_empty() || text.last() == Some(&b' ') {
        return None;
    }
    words.filter(|word| !word.is_empty()).map(|word| number_to(word, MOST_VALUE)).collect()
}

/// "All numbers in decimal digits": one or more, at most so large, with any number of zeros in front.
fn number_to(word: &[u8], most: u64) -> Option<u64> {
    if word.is_empty() || !word.iter().all(u8::is_ascii_digit) {
        return None;
    }
    let zeros = word.iter().take_while(|digit| **digit == b'0').count();
    let digits = std::str::from_utf8(&word[zeros..]).ok()?;
    let number = if digits.is_empty() { 0 } else { digits.parse().ok()? };
    (number <= most).then_some(number)
}
