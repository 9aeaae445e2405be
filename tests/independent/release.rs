//! The release sheet of a collection: counts, the majority's groups, both trees, the majority tree drawn, the splits, and
//! one strain's stand-ins.

use crate::collection::Collection;
use crate::consensus::children;
use crate::labels::written_name;
use crate::sets::{every_taxon, taxa_of, Taxa};
use std::cmp::Reverse;

/// What the sheet is to have.
#[derive(Default)]
pub struct Wanted {
    pub splits: bool,
    /// The two trees alone.
    pub newick: bool,
    /// The taxon whose stand-ins are asked for.
    pub apart: Option<u32>,
}

type Line = Vec<u8>;

/// The bytes of the sheet; so many texts and files were refused.
pub fn release(collection: &Collection, refused: u64, wanted: &Wanted) -> Vec<u8> {
    let sheet = Sheet::of(collection);
    let lines = match wanted.newick {
        true => both_trees(collection).into_iter().flatten().collect(),
        false => sheet.lines(refused, wanted),
    };
    lines.into_iter().flat_map(|line| [line, b"\n".to_vec()].concat()).collect()
}

/// The majority tree and the strict tree; none without trees.
fn both_trees(collection: &Collection) -> [Option<Line>; 2] {
    [collection.majority_text(usize::MAX).ok(), collection.strict_text(usize::MAX).ok()]
}

/// A majority split: its side without taxon 0, and how many trees have it.
struct Group {
    taxa: Taxa,
    count: u64,
}

struct Sheet<'a> {
    collection: &'a Collection,
    /// By rising mask.
    groups: Vec<Group>,
}

impl<'a> Sheet<'a> {
    fn of(collection: &'a Collection) -> Sheet<'a> {
        let group = |mask: u64| Group { taxa: taxa_of(mask), count: collection.counts()[&mask] };
        Sheet { collection, groups: collection.majority_splits().into_iter().map(group).collect() }
    }

    fn lines(&self, refused: u64, wanted: &Wanted) -> Vec<Line> {
        let mut lines = vec![self.counts(refused)];
        lines.extend(self.groups.iter().map(|group| self.listed("group", group)));
        for (word, tree) in [&b"majority "[..], b"strict "].into_iter().zip(both_trees(self.collection)) {
            lines.push([word, &tree.unwrap_or(b"none".to_vec())].concat());
        }
        // "Nothing without trees": a tree of no splits is drawn too.
        if self.collection.number_of_trees() > 0 {
            lines.extend(self.children_drawn(&self.all()));
        }
        if wanted.splits {
            lines.extend(self.collection.counts().iter().map(|(mask, count)| format!("{mask} {count}").into_bytes()));
        }
        lines.extend(wanted.apart.into_iter().flat_map(|taxon| self.stand_ins(taxon)));
        lines
    }

    fn all(&self) -> Taxa {
        every_taxon(self.collection.opening().names.len() as u32)
    }

    fn label(&self, taxon: u32) -> Line {
        written_name(&self.collection.opening().names[taxon as usize])
    }

    fn counts(&self, refused: u64) -> Line {
        let (taxa, trees) = (self.all().len(), self.collection.number_of_trees());
        let splits = self.collection.counts().len();
        format!("taxa {taxa} trees {trees} refused {refused} splits {splits}").into_bytes()
    }

    /// A word, a group's count, and its strains in the order of the name list.
    fn listed(&self, word: &str, group: &Group) -> Line {
        let front = format!("{word} {}", group.count).into_bytes();
        let labels = group.taxa.iter().map(|taxon| self.label(*taxon));
        [front].into_iter().chain(labels).collect::<Vec<Line>>().join(&b' ')
    }

    // The drawing

    /// The lines of a node with these taxa: "each with a `+` at its first line; lines of a child behind its first begin
    /// with `|` where another child of the node follows, with a space where it is the last".
    fn children_drawn(&self, taxa: &Taxa) -> Vec<Line> {
        let clusters: Vec<Taxa> = self.groups.iter().map(|group| group.taxa.clone()).collect();
        let children = children(taxa, &clusters);
        let mut lines = Vec::new();
        for (i, child) in children.iter().enumerate() {
            let behind = if i + 1 < children.len() { b"|" } else { b" " };
            let drawn = self.child_drawn(child).into_iter().enumerate();
            lines.extend(drawn.map(|(j, line)| [if j == 0 { b"+" } else { behind }, &line[..]].concat()));
        }
        lines
    }

    /// "A strain is `- LABEL`; a group that C trees have is `-C-`, then its own children's lines, those behind the first
    /// being moved in by as many spaces".
    fn child_drawn(&self, taxa: &Taxa) -> Vec<Line> {
        if taxa.len() == 1 {
            return taxa.iter().map(|taxon| [b"- ", &self.label(*taxon)[..]].concat()).collect();
        }
        let group = self.groups.iter().find(|group| group.taxa == *taxa).expect("a child is a strain or a group");
        let stem = format!("-{}-", group.count).into_bytes();
        let moved = vec![b' '; stem.len()];
        let lines = self.children_drawn(taxa).into_iter().enumerate();
        lines.map(|(i, line)| [if i == 0 { &stem } else { &moved }, &line[..]].concat()).collect()
    }

    // Stand-ins

    /// A line for each other strain, "those first whose group is larger, equal ones in the order of the name list", and
    /// before them those without any. Without trees there is no group, so that every line says none.
    fn stand_ins(&self, taxon: u32) -> Vec<Line> {
        let others = self.all().into_iter().filter(|other| *other != taxon);
        let mut found: Vec<(u32, Option<&Group>)> = others.map(|other| (other, self.shared(taxon, other))).collect();
        found.sort_by_key(|(_, group)| Reverse(group.map_or(usize::MAX, |group| group.taxa.len())));
        let line = |(other, group): (u32, Option<&Group>)| {
            let word = [b"apart ", &self.label(other)[..]].concat();
            match group {
                None => [&word[..], b" none"].concat(),
                Some(group) => [word, self.listed("", group)].concat(),
            }
        };
        found.into_iter().map(line).collect()
    }

    /// The smallest group of the sheet that holds both; taxon 0 is in none. Of two groups that hold both, one lies in the
    /// other, as majority splits agree, so that no two are as small.
    fn shared(&self, taxon: u32, other: u32) -> Option<&Group> {
        let both = self.groups.iter().filter(|group| [taxon, other].iter().all(|one| group.taxa.contains(one)));
        both.min_by_key(|group| group.taxa.len())
    }
}
