//! The refusals of matrices in PHYLIP's layout: each alone, and before those that come behind it.

use crate::collection::{read_phylip, Collection};
use crate::words::hex;

/// Malformed ones, some not symmetric too or with a diagonal that is not 0.
const MALFORMED: [&str; 25] = [
    "",
    "0",
    "\n",
    "x\n",
    "0\n\n",
    "0 \n",
    "0\r\n",
    "1025\n",
    "18446744073709551616\n",
    "1\n",
    "1\nt0         0",
    "1\nt0         0 \n",
    "1\nt0         0\r\n",
    "1\nt0        0\n",
    "1\nt0\t        0\n",
    "1\nt0         65536\n",
    "1\nt0         7 0\n",
    "1\nt0         7\n0\n",
    "2\nt0         0 1\n",
    "2\nt0         0 1\nt1         2\n",
    "2\nt0         0 1\nt1         2 65536\n",
    "2\nt0         0 1\nt1         2 0\nt2         0 0\n",
    "2\nt0         0 1\nt1         2\t0\n",
    "2\nt0         0 1\nt1         2 0x\n",
    "2\nt0         0 1\nt1         2 -0\n",
];

/// Not symmetric, or not 0 on the diagonal.
const NOT_ALIKE: [&str; 7] = [
    "1\nt0         7\n",
    "1\nt0         65535\n",
    "2\nt0         0 1\nt1         2 0\n",
    "2\nt0         0 1\nt1         0 0\n",
    "2\nt0         0 1\nt1         1 1\n",
    "2\nt0         1 0\nt1         0 0\n",
    "3\nt0         0 1 2\nt1         1 0 3\nt2         2 4 0\n",
];

/// Lines that are refused in buffers of any length, and whatever the lent bytes are.
pub fn refused_phylips() -> Vec<String> {
    MALFORMED.iter().chain(&NOT_ALIKE).map(|file| format!("read-phylip {}", hex(file.as_bytes()))).collect()
}

/// Each call that writes a matrix or reads one, and the elements of its answer.
pub fn phylip_answers_with_lengths(held: &Collection) -> Vec<(String, usize)> {
    let own = held.phylip(usize::MAX).unwrap_or_default();
    let mut out = vec![("phylip".to_string(), own.len())];
    for file in [&own[..], b"0\n", b"1\n          0000\n", b"2\nt0         0 65535\nt1         65535 0\n"] {
        let entries = read_phylip(file, usize::MAX).map_or(0, |(_, values)| values.len());
        out.push((format!("read-phylip {}", hex(file)), entries));
    }
    out
}
