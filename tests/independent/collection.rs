//! The collection: accepted trees as sets of masks with their lengths, lanes, and every call on it.

use crate::claim::{claim, Claim};
use crate::consensus::{majority, strict, written, Counts};
use crate::double::Double;
use crate::hash::{identifier, place};
use crate::labels::{first_outside, is_odd, split_outside};
use crate::nexus::plain_texts;
use crate::opening::Opening;
use crate::phylip;
use crate::splitfile::{self, Splits};
use crate::text::is_blank;
use crate::verdict::{judge, judge_with_lengths, Lengths, Masks, Tree, MOST_BYTES};
use crate::weights::{summed, weighted, Summed};
use std::collections::BTreeMap;

#[derive(PartialEq)]
pub struct Collection {
    opening: Opening,
    trees: Vec<Tree>,
    /// The recorded splits in rising order of mask, each with the number of trees that have it.
    counts: Counts,
    lanes: Vec<Lane>,
}

#[derive(PartialEq)]
pub enum Lane {
    Holding(Vec<u8>),
    /// It drops bytes; `odd` is whether an odd number of apostrophes came so far in the text.
    RunOver {
        odd: bool,
    },
}

pub enum Fed {
    More { taken: usize },
    Accepted { taken: usize, tree: usize },
    Refused { taken: usize, refusal: u32 },
}

/// The number of an accepted tree, or a refusal.
pub type Verdict = Result<usize, u32>;

/// What a batch answers: the verdict on each text, and the bytes taken.
pub struct Batch {
    pub verdicts: Vec<Verdict>,
    pub taken: usize,
}

impl Lane {
    fn empty() -> Lane {
        Lane::Holding(Vec::new())
    }

    /// Whether the text so far has an odd number of apostrophes.
    fn is_odd(&self) -> bool {
        match self {
            Lane::Holding(held) => is_odd(held),
            Lane::RunOver { odd } => *odd,
        }
    }

    /// "Past 4,608 held bytes, blanks counted, the lane drops bytes", and counts the apostrophes among them.
    fn hold(&mut self, bytes: &[u8]) {
        let odd = self.is_odd() != is_odd(bytes);
        match self {
            Lane::Holding(held) if held.len() + bytes.len() <= MOST_BYTES => held.extend(bytes),
            _ => *self = Lane::RunOver { odd },
        }
    }
}

impl Collection {
    pub fn new(opening: Opening) -> Collection {
        let lanes = (0..opening.numbers.lanes).map(|_| Lane::empty()).collect();
        Collection::holding(opening, Vec::new(), lanes)
    }

    pub fn holding(opening: Opening, trees: Vec<Tree>, lanes: Vec<Lane>) -> Collection {
        let mut collection = Collection { opening, trees: Vec::new(), counts: Counts::new(), lanes };
        trees.into_iter().for_each(|tree| collection.record(tree));
        collection
    }

    // Feeding

    /// "Takes bytes up to the first semicolon and that semicolon, or all if there is none"; such a one counts "only if an
    /// even number of apostrophes stands before it in that text".
    pub fn feed(&mut self, lane: u64, piece: &[u8]) -> Fed {
        let Some(at) = self.lane_index(lane) else {
            return Fed::Refused { taken: 0, refusal: 5 };
        };
        let Some(semicolon) = first_outside(self.lanes[at].is_odd(), piece, b';') else {
            self.lanes[at].hold(piece);
            return Fed::More { taken: piece.len() };
        };
        self.lanes[at].hold(&piece[..semicolon]);
        let taken = semicolon + 1;
        match self.judge_lane(at) {
            Ok(tree) => Fed::Accepted { taken, tree },
            Err(refusal) => Fed::Refused { taken, refusal },
        }
    }

    /// As many feedings as take the whole piece; 4 if there are more texts than the room for verdicts.
    pub fn batch(&mut self, lane: u64, piece: &[u8], room: usize) -> Result<Batch, u32> {
        let at = self.lane_index(lane).ok_or(5u32)?;
        if self.texts_in(at, piece) > room {
            return Err(4);
        }
        let mut batch = Batch { verdicts: Vec::new(), taken: 0 };
        while batch.taken < piece.len() {
            let took = match self.feed(lane, &piece[batch.taken..]) {
                Fed::More { taken } => taken,
                Fed::Accepted { taken, tree } => {
                    batch.verdicts.push(Ok(tree));
                    taken
                }
                Fed::Refused { taken, refusal } => {
                    batch.verdicts.push(Err(refusal));
                    taken
                }
            };
            batch.taken += took;
        }
        Ok(batch)
    }

    /// How many texts end in a piece for a lane that there is.
    pub fn texts_in(&self, lane: usize, piece: &[u8]) -> usize {
        match first_outside(self.lanes[lane].is_odd(), piece, b';') {
            None => 0,
            Some(at) => split_outside(&piece[at + 1..], b';').len(),
        }
    }

    /// The verdicts on the trees of a NEXUS file, each "judged as its plain text handed whole to an empty lane; no real
    /// lane is touched". 15, 16 and 4 feed no tree.
    pub fn nexus(&mut self, file: &[u8], room: usize) -> Result<Vec<Verdict>, u32> {
        let texts = fitting(plain_texts(file)?, room)?;
        Ok(texts.iter().map(|text| self.judge_text(text)).collect())
    }

    /// "6 if it had run over, 7 if it held any byte but blanks, else done."
    pub fn close(&mut self, lane: u64) -> Result<(), u32> {
        let at = self.lane_index(lane).ok_or(5u32)?;
        match std::mem::replace(&mut self.lanes[at], Lane::empty()) {
            Lane::RunOver { .. } => Err(6),
            Lane::Holding(held) if held.iter().any(|b| !is_blank(*b)) => Err(7),
            Lane::Holding(_) => Ok(()),
        }
    }

    fn lane_index(&self, lane: u64) -> Option<usize> {
        usize::try_from(lane).ok().filter(|at| *at < self.lanes.len())
    }

    /// "After a semicolon the lane is empty either way."
    fn judge_lane(&mut self, at: usize) -> Verdict {
        match std::mem::replace(&mut self.lanes[at], Lane::empty()) {
            Lane::RunOver { .. } => Err(6),
            Lane::Holding(text) => self.judge_text(&text),
        }
    }

    fn judge_text(&mut self, text: &[u8]) -> Verdict {
        let names = &self.opening.names;
        let tree = match self.opening.numbers.lengths {
            true => judge_with_lengths(names, text)?,
            false => Tree { splits: judge(names, text)?, lengths: Lengths::new() },
        };
        self.accept(tree)
    }

    /// 11, then 12, before anything is recorded.
    fn accept(&mut self, tree: Tree) -> Verdict {
        if self.trees.len() as u64 == self.opening.numbers.tree_room {
            return Err(11);
        }
        let new = tree.splits.iter().filter(|mask| !self.counts.contains_key(mask)).count();
        if (self.counts.len() + new) as u64 > self.opening.numbers.split_room {
            return Err(12);
        }
        self.record(tree);
        Ok(self.trees.len() - 1)
    }

    fn record(&mut self, tree: Tree) {
        for mask in &tree.splits {
            *self.counts.entry(*mask).or_insert(0) += 1;
        }
        self.trees.push(tree);
    }

    // Withdrawing

    /// "Trees after it move down by one number. A split whose count falls to 0 leaves the table": all is as if the trees
    /// that are left were the accepted ones.
    pub fn withdraw(&mut self, tree: u64) -> Result<(), u32> {
        self.tree_numbered(tree)?;
        let mut left = std::mem::take(&mut self.trees);
        left.remove(tree as usize);
        self.counts.clear();
        left.into_iter().for_each(|tree| self.record(tree));
        Ok(())
    }

    // Questions

    pub fn opening(&self) -> &Opening {
        &self.opening
    }

    pub fn trees(&self) -> &[Tree] {
        &self.trees
    }

    pub fn lanes(&self) -> &[Lane] {
        &self.lanes
    }

    pub fn number_of_trees(&self) -> usize {
        self.trees.len()
    }

    pub fn counts(&self) -> &Counts {
        &self.counts
    }

    pub fn splits(&self, room: usize) -> Result<Vec<(u64, u64)>, u32> {
        fitting(self.counts.iter().map(|(mask, count)| (*mask, *count)).collect(), room)
    }

    pub fn split(&self, number: u64) -> Result<(u64, u64), u32> {
        let at = usize::try_from(number).map_err(|_| 13u32)?;
        self.counts.iter().nth(at).map(|(mask, count)| (*mask, *count)).ok_or(13)
    }

    pub fn tree(&self, number: u64, room: usize) -> Result<Vec<u64>, u32> {
        fitting(self.masks(number)?.iter().copied().collect(), room)
    }

    /// "The one-sided number is the splits of i that j lacks."
    pub fn one_sided(&self, i: u64, j: u64) -> Result<u64, u32> {
        let (of_i, of_j) = (self.masks(i)?, self.masks(j)?);
        Ok(of_i.difference(of_j).count() as u64)
    }

    pub fn doubled(&self, i: u64, j: u64) -> Result<u64, u32> {
        Ok(self.one_sided(i, j)? + self.one_sided(j, i)?)
    }

    /// 13, then 18 where "a length needed is absent or none are kept".
    pub fn weighted(&self, i: u64, j: u64) -> Result<Double, u32> {
        let (of_i, of_j) = (self.tree_numbered(i)?, self.tree_numbered(j)?);
        self.kept().and_then(|()| weighted(of_i, of_j)).ok_or(18)
    }

    /// The same of a split.
    pub fn lengths(&self, number: u64) -> Result<Summed, u32> {
        let (mask, _) = self.split(number)?;
        self.kept().and_then(|()| summed(&self.trees, mask)).ok_or(18)
    }

    fn kept(&self) -> Option<()> {
        self.opening.numbers.lengths.then_some(())
    }

    /// "t × t sixteen-bit entries, row by row."
    pub fn matrix(&self, room: usize) -> Result<Vec<u64>, u32> {
        let t = self.trees.len() as u64;
        let entries = (0..t).flat_map(|i| (0..t).map(move |j| (i, j)));
        let distances: Result<Vec<u64>, u32> = entries.map(|(i, j)| self.doubled(i, j)).collect();
        fitting(distances?, room)
    }

    /// The same in PHYLIP's layout.
    pub fn phylip(&self, room: usize) -> Result<Vec<u8>, u32> {
        let t = self.trees.len();
        let rows = self.matrix(usize::MAX)?.chunks(t.max(1)).map(<[u64]>::to_vec).collect();
        fitting(phylip::write(&rows), room)
    }

    /// "The count of unordered pairs of different recorded splits equal in place and identifier."
    pub fn collisions(&self) -> u64 {
        let mut alike: BTreeMap<(u64, u64), u64> = BTreeMap::new();
        for mask in self.counts.keys() {
            let place = place(*mask, &self.opening.first, self.opening.numbers.places);
            let identifier = identifier(*mask, &self.opening.second);
            *alike.entry((place, identifier)).or_insert(0) += 1;
        }
        alike.values().map(|k| k * (k - 1) / 2).sum()
    }

    pub fn strict_splits(&self) -> Masks {
        strict(&self.counts, self.trees.len() as u64)
    }

    pub fn majority_splits(&self) -> Masks {
        majority(&self.counts, self.trees.len() as u64)
    }

    pub fn strict_text(&self, room: usize) -> Result<Vec<u8>, u32> {
        self.consensus_text(&self.strict_splits(), room)
    }

    pub fn majority_text(&self, room: usize) -> Result<Vec<u8>, u32> {
        self.consensus_text(&self.majority_splits(), room)
    }

    /// Both, each into a buffer of so many bytes.
    pub fn both_texts(&self, room: usize) -> Result<(Vec<u8>, Vec<u8>), u32> {
        Ok((self.strict_text(room)?, self.majority_text(room)?))
    }

    /// "Order: 14, then 6 to 10. No lane is touched."
    pub fn claim(&self, text: &[u8]) -> Result<Claim, u32> {
        if self.trees.is_empty() {
            return Err(14);
        }
        claim(&self.opening.names, text, &self.majority_splits())
    }

    pub fn tree_text(&self, number: u64, room: usize) -> Result<Vec<u8>, u32> {
        fitting(written(&self.opening.names, self.masks(number)?), room)
    }

    // Split files

    fn taxa(&self) -> u32 {
        self.opening.names.len() as u32
    }

    /// What the accepted trees have.
    fn split_file(&self) -> Splits {
        Splits { trees: Some(self.trees.len() as u64), counts: self.counts.clone() }
    }

    pub fn file(&self, room: usize) -> Result<Vec<u8>, u32> {
        fitting(splitfile::write(&self.split_file()), room)
    }

    /// In buffers for so many splits.
    pub fn records(&self, file: &[u8], room: usize) -> Result<Splits, u32> {
        let splits = splitfile::read(file, self.taxa())?;
        if splits.counts.len() > room {
            return Err(4);
        }
        Ok(splits)
    }

    /// 19 and 20 "for the first file, then for the second".
    pub fn merge(&self, first: &[u8], second: &[u8], room: usize) -> Result<Vec<u8>, u32> {
        let first = splitfile::read(first, self.taxa())?;
        let second = splitfile::read(second, self.taxa())?;
        fitting(splitfile::write(&splitfile::merge(&first, &second)?), room)
    }

    pub fn file_strict(&self, file: &[u8], room: usize) -> Result<Vec<u8>, u32> {
        self.file_text(file, strict, room)
    }

    pub fn file_majority(&self, file: &[u8], room: usize) -> Result<Vec<u8>, u32> {
        self.file_text(file, majority, room)
    }

    fn file_text(&self, file: &[u8], rule: fn(&Counts, u64) -> Masks, room: usize) -> Result<Vec<u8>, u32> {
        let splits = splitfile::read(file, self.taxa())?;
        fitting(written(&self.opening.names, &splitfile::chosen(&splits, rule)?), room)
    }

    /// "Consensus of no trees" is 14.
    fn consensus_text(&self, splits: &Masks, room: usize) -> Result<Vec<u8>, u32> {
        if self.trees.is_empty() {
            return Err(14);
        }
        fitting(written(&self.opening.names, splits), room)
    }

    fn masks(&self, tree: u64) -> Result<&Masks, u32> {
        self.tree_numbered(tree).map(|tree| &tree.splits)
    }

    fn tree_numbered(&self, tree: u64) -> Result<&Tree, u32> {
        usize::try_from(tree).ok().and_then(|at| self.trees.get(at)).ok_or(13)
    }
}

/// The entries of a matrix in PHYLIP's layout, row by row, and how many trees it has; it needs no collection.
pub fn read_phylip(file: &[u8], room: usize) -> Result<(usize, Vec<u64>), u32> {
    let rows = phylip::read(file)?;
    Ok((rows.len(), fitting(rows.concat(), room)?))
}

/// 4 if "a lent buffer is too short for the whole answer".
fn fitting<T>(answer: Vec<T>, room: usize) -> Result<Vec<T>, u32> {
    if answer.len() > room {
        Err(4)
    } else {
        Ok(answer)
    }
}
