//! Changes of a store's fields: such that leave it whole, mostly, and faults that break one rule of "Whole means".

use crate::double::NO_LENGTH;
use crate::labels::written_names;
use crate::layout::{RUN_OVER, RUN_OVER_ODD};
use crate::parts::Parts;
use crate::random::Random;
use crate::sets::{agree, is_proper, taxa_of};

pub type Change = fn(&mut Random, &mut Parts);

/// Another collection, with all that hangs on it.
pub const CHANGES: [Change; 17] = [
    other_names,
    name_with_any_quoted_byte,
    name_of_apostrophes,
    other_constants,
    trees_exchanged,
    tree_repeated,
    tree_emptied,
    split_left_out,
    lane_with_any_bytes,
    lane_run_over,
    lane_with_open_quotes,
    lane_with_text,
    other_lengths,
    lengths_by_chance,
    length_absent,
    lengths_kept_now,
    lengths_kept_no_more,
];

/// Nearly always no whole store, for one reason.
pub const FAULTS: [Change; 32] = [
    name_repeated,
    name_empty,
    name_with_a_bad_byte,
    first_constant_too_large,
    mask_of_one_taxon,
    mask_of_all_but_one,
    mask_with_taxon_0,
    mask_past_the_taxa,
    mask_of_nothing,
    mask_repeated,
    mask_by_chance,
    splits_disagree,
    list_falls,
    list_repeats,
    list_has_no_row,
    split_in_no_tree,
    count_off,
    identifier_off,
    link_off,
    start_off,
    chains_rise,
    split_not_chained,
    rows_exchanged,
    row_repeated,
    no_such_row,
    lane_too_long,
    split_counted_and_not_listed,
    tree_past_the_room,
    length_no_number,
    length_infinite,
    length_minus_zero,
    kept_word_off,
];

/// Doubles that a store may hold: zero, the least, the largest, and such as are lost or show in sums.
pub const STORED_LENGTHS: [u64; 16] = [
    0,
    1,
    0x8000000000000001,
    0x000fffffffffffff,
    0x0010000000000000,
    0x8010000000000000,
    0x3fb999999999999a,
    0xbfb999999999999a,
    0x3ff0000000000000,
    0xbff0000000000000,
    0x4340000000000000,
    0xc340000000000001,
    0x7fe0000000000000,
    0x7fefffffffffffff,
    0xffefffffffffffff,
    NO_LENGTH,
];

pub const INFINITE: [u64; 2] = [0x7ff0000000000000, 0xfff0000000000000];
pub const MINUS_ZERO: u64 = 0x8000000000000000;
/// What is no number, but for the bits that say that there is no length.
pub const NO_NUMBERS: [u64; 8] = [
    0x7ff0000000000001,
    0xfff0000000000001,
    0x7ff8000000000000,
    0xfff8000000000000,
    0x7fffffffffffffff,
    0xfffffffffffffffe,
    0xfff0ffffffffffff,
    0xffff7fffffffffff,
];

fn some_index(random: &mut Random, long: usize) -> Option<usize> {
    (long > 0).then(|| random.below(long))
}

/// One more or one less.
fn off(random: &mut Random, value: &mut u64) {
    *value = if random.one_in(2) { value.wrapping_add(1) } else { value.wrapping_sub(1) };
}

// Changes

fn other_names(_: &mut Random, parts: &mut Parts) {
    parts.names.rotate_left(1);
}

/// "1 to 32 bytes from 32 to 126": marks and blanks among them, as names are kept as they read.
fn name_with_any_quoted_byte(random: &mut Random, parts: &mut Parts) {
    let name = some_name(random, parts);
    let at = random.below(name.len());
    let byte = random.between(32, 126) as u8;
    name[at] = *random.pick(&[b' ', b' ', b'_', b'\'', b'(', b';', b'~', byte, byte, byte]);
}

fn name_of_apostrophes(random: &mut Random, parts: &mut Parts) {
    *some_name(random, parts) = vec![b'\''; 32];
}

fn some_name<'a>(random: &mut Random, parts: &'a mut Parts) -> &'a mut Vec<u8> {
    let at = random.below(parts.names.len());
    &mut parts.names[at]
}

fn other_constants(random: &mut Random, parts: &mut Parts) {
    let places = parts.numbers.places;
    parts.first.iter_mut().for_each(|c| *c = random.next() % places);
    parts.second.iter_mut().for_each(|c| *c = random.next());
    parts.derive();
}

fn trees_exchanged(_: &mut Random, parts: &mut Parts) {
    parts.lists.reverse();
    parts.lengths.reverse();
}

fn tree_repeated(random: &mut Random, parts: &mut Parts) {
    if let Some(from) = some_index(random, parts.lists.len()) {
        let to = random.below(parts.lists.len());
        parts.lists[to] = parts.lists[from].clone();
        parts.derive();
    }
}

fn tree_emptied(random: &mut Random, parts: &mut Parts) {
    if let Some(tree) = some_index(random, parts.lists.len()) {
        parts.lists[tree].clear();
        parts.derive();
    }
}

fn split_left_out(random: &mut Random, parts: &mut Parts) {
    if let Some(tree) = some_index(random, parts.lists.len()) {
        parts.lists[tree].pop();
        parts.derive();
    }
}

fn lane_with_any_bytes(random: &mut Random, parts: &mut Parts) {
    let long = random.below(40);
    let bytes = (0..long).map(|_| random.below(256) as u8).collect();
    set_lane(random, parts, long as u64, bytes);
}

fn lane_run_over(random: &mut Random, parts: &mut Parts) {
    let long = *random.pick(&[RUN_OVER, RUN_OVER_ODD]);
    set_lane(random, parts, long, Vec::new());
}

/// Some hold semicolons too, though no lane comes to that by itself.
fn lane_with_open_quotes(random: &mut Random, parts: &mut Parts) {
    let text = *random.pick(&[&b"('a;"[..], b"'", b"''", b"(A,'b''", b";'", b"';'", b"('''"]);
    set_lane(random, parts, text.len() as u64, text.to_vec());
}

/// A text up to its last bracket, for the next feeding to end.
fn lane_with_text(_: &mut Random, parts: &mut Parts) {
    let text = [&b"("[..], &written_names(&parts.names, b','), b")"].concat();
    parts.lanes[0] = (text.len() as u64, text);
}

fn set_lane(random: &mut Random, parts: &mut Parts, long: u64, bytes: Vec<u8>) {
    let lane = random.below(parts.lanes.len());
    parts.lanes[lane] = (long, bytes);
}

// Lengths

/// Keeps lengths from now on, with one of these for each split of each tree.
fn keep_lengths(random: &mut Random, parts: &mut Parts, any_of: &[u64]) {
    (parts.numbers.lengths, parts.kept) = (true, 1);
    let some = |list: &Vec<u64>| list.iter().map(|_| *random.pick(any_of)).collect();
    parts.lengths = parts.lists.iter().map(some).collect();
}

fn other_lengths(random: &mut Random, parts: &mut Parts) {
    let some = [*random.pick(&STORED_LENGTHS), *random.pick(&STORED_LENGTHS[..15]), 0x4008000000000000];
    keep_lengths(random, parts, &some);
}

/// Nearly always finite.
fn lengths_by_chance(random: &mut Random, parts: &mut Parts) {
    let some: Vec<u64> = (0..20).map(|_| random.next()).collect();
    keep_lengths(random, parts, &some);
}

/// One of any kind in place of another, if lengths are kept.
fn length_absent(random: &mut Random, parts: &mut Parts) {
    set_length(random, parts, NO_LENGTH);
}

fn lengths_kept_now(random: &mut Random, parts: &mut Parts) {
    keep_lengths(random, parts, &STORED_LENGTHS[..15]);
}

fn lengths_kept_no_more(_: &mut Random, parts: &mut Parts) {
    (parts.numbers.lengths, parts.kept) = (false, 0);
}

fn set_length(random: &mut Random, parts: &mut Parts, length: u64) {
    let with_splits: Vec<usize> = (0..parts.lengths.len()).filter(|tree| !parts.lengths[*tree].is_empty()).collect();
    if let Some(at) = some_index(random, with_splits.len()) {
        let lengths = &mut parts.lengths[with_splits[at]];
        let at = random.below(lengths.len());
        lengths[at] = length;
    }
}

/// Lengths that are right, but for one.
fn one_length(random: &mut Random, parts: &mut Parts, length: u64) {
    if !parts.numbers.lengths {
        keep_lengths(random, parts, &STORED_LENGTHS);
    }
    set_length(random, parts, length);
}

fn length_no_number(random: &mut Random, parts: &mut Parts) {
    let length = *random.pick(&NO_NUMBERS);
    one_length(random, parts, length);
}

fn length_infinite(random: &mut Random, parts: &mut Parts) {
    let length = *random.pick(&INFINITE);
    one_length(random, parts, length);
}

fn length_minus_zero(random: &mut Random, parts: &mut Parts) {
    one_length(random, parts, MINUS_ZERO);
}

/// Neither kept nor not.
fn kept_word_off(random: &mut Random, parts: &mut Parts) {
    parts.kept = *random.pick(&[2, 3, 255, 256, 257, 512, 32768, 65535]);
}

// Faults of the opening's numbers and names

fn name_repeated(random: &mut Random, parts: &mut Parts) {
    let at = random.between(1, parts.names.len() - 1);
    parts.names[at] = parts.names[random.below(at)].clone();
}

fn name_empty(random: &mut Random, parts: &mut Parts) {
    some_name(random, parts).clear();
}

fn name_with_a_bad_byte(random: &mut Random, parts: &mut Parts) {
    let byte = *random.pick(&[0, 9, 10, 13, 30, 31, 127, 128, 160, 255]);
    let name = some_name(random, parts);
    let at = random.below(name.len());
    name[at] = byte;
}

fn first_constant_too_large(random: &mut Random, parts: &mut Parts) {
    let at = random.below(parts.first.len());
    // The sums stay what they are modulo the places.
    parts.first[at] += parts.numbers.places;
}

// Faults of masks, with all else as it must be for them

fn with_mask(random: &mut Random, parts: &mut Parts, mask: u64) {
    if let Some(row) = some_index(random, parts.masks.len()) {
        parts.masks[row] = mask;
        let masks = parts.masks.clone();
        parts.lists.iter_mut().for_each(|list| list.sort_by_key(|row| masks[*row as usize]));
        parts.derive();
    }
}

fn all_taxa(parts: &Parts) -> u64 {
    u64::MAX >> (64 - parts.numbers.taxa)
}

fn mask_of_one_taxon(random: &mut Random, parts: &mut Parts) {
    let taxon = random.between(1, parts.names.len() - 1);
    with_mask(random, parts, 1 << taxon);
}

fn mask_of_all_but_one(random: &mut Random, parts: &mut Parts) {
    let mask = all_taxa(parts) - 1;
    with_mask(random, parts, mask);
}

fn mask_with_taxon_0(random: &mut Random, parts: &mut Parts) {
    with_mask(random, parts, 3);
}

fn mask_past_the_taxa(random: &mut Random, parts: &mut Parts) {
    if parts.numbers.taxa < 64 {
        let mask = 2 + (1 << parts.numbers.taxa);
        with_mask(random, parts, mask);
    }
}

fn mask_of_nothing(random: &mut Random, parts: &mut Parts) {
    with_mask(random, parts, 0);
}

fn mask_repeated(random: &mut Random, parts: &mut Parts) {
    if let Some(from) = some_index(random, parts.masks.len()) {
        let mask = parts.masks[from];
        with_mask(random, parts, mask);
    }
}

/// It may be a split that fits by luck.
fn mask_by_chance(random: &mut Random, parts: &mut Parts) {
    let mask = random.next() & all_taxa(parts) & !1;
    with_mask(random, parts, mask);
}

// Faults of lists

/// A tree lists another split that it disagrees with.
fn splits_disagree(random: &mut Random, parts: &mut Parts) {
    let Some(tree) = some_index(random, parts.lists.len()) else {
        return;
    };
    let masks = parts.masks.clone();
    let apart = |a: u64, b: u64| !agree(&taxa_of(masks[a as usize]), &taxa_of(masks[b as usize]));
    let list = &mut parts.lists[tree];
    let other = (0..masks.len() as u64).find(|row| list.iter().any(|listed| apart(*row, *listed)));
    if let Some(row) = other {
        list.push(row);
        list.sort_by_key(|row| masks[*row as usize]);
        parts.derive();
    }
}

fn list_falls(random: &mut Random, parts: &mut Parts) {
    if let Some(tree) = some_index(random, parts.lists.len()) {
        parts.lists[tree].reverse();
    }
}

fn list_repeats(random: &mut Random, parts: &mut Parts) {
    if let Some(tree) = some_index(random, parts.lists.len()) {
        let last = parts.lists[tree].last().copied();
        parts.lists[tree].extend(last);
        parts.derive();
    }
}

fn list_has_no_row(random: &mut Random, parts: &mut Parts) {
    let none = *random.pick(&[parts.masks.len() as u64, parts.numbers.split_room, 65535]);
    if let Some(tree) = some_index(random, parts.lists.len()) {
        parts.lists[tree].push(none);
    }
}

/// A recorded split of count 0, if there is room and one is free.
fn split_in_no_tree(_: &mut Random, parts: &mut Parts) {
    let n = parts.numbers.taxa as u32;
    let is_free = |mask: &u64| is_proper(&taxa_of(*mask), n) && !parts.masks.contains(mask);
    let free = (6..200).find(is_free).filter(|_| (parts.masks.len() as u64) < parts.numbers.split_room);
    if let Some(mask) = free {
        parts.masks.push(mask);
        parts.derive();
    }
}

fn split_counted_and_not_listed(random: &mut Random, parts: &mut Parts) {
    if let Some(tree) = some_index(random, parts.lists.len()) {
        parts.lists[tree].pop();
    }
}

/// Trees without splits, one more than the room: it lies where the masks would.
fn tree_past_the_room(_: &mut Random, parts: &mut Parts) {
    parts.masks.clear();
    parts.lists = vec![Vec::new(); parts.numbers.tree_room as usize + 1];
    parts.derive();
}

// Faults of what hangs on masks and lists

fn count_off(random: &mut Random, parts: &mut Parts) {
    some_index(random, parts.counts.len()).into_iter().for_each(|row| off(random, &mut parts.counts[row]));
}

fn identifier_off(random: &mut Random, parts: &mut Parts) {
    some_index(random, parts.identifiers.len()).into_iter().for_each(|row| off(random, &mut parts.identifiers[row]));
}

fn link_off(random: &mut Random, parts: &mut Parts) {
    if let Some(row) = some_index(random, parts.links.len()) {
        parts.links[row] = random.between(0, parts.links.len() + 1) as u64;
    }
}

fn start_off(random: &mut Random, parts: &mut Parts) {
    if let Some(place) = some_index(random, parts.starts.len()) {
        parts.starts[place] = random.between(0, parts.masks.len() + 1) as u64;
    }
}

/// Every chain from its lowest row up: each split is met once, but not in the order of STORE.md.
fn chains_rise(_: &mut Random, parts: &mut Parts) {
    let (starts, links) = (parts.starts.clone(), parts.links.clone());
    for (place, start) in starts.into_iter().enumerate() {
        let (mut row, mut above) = (start, 0);
        while row > 0 {
            parts.links[row as usize - 1] = above;
            above = row;
            row = links[row as usize - 1];
        }
        parts.starts[place] = above;
    }
}

/// The first row of some chain is passed over.
fn split_not_chained(random: &mut Random, parts: &mut Parts) {
    let used: Vec<usize> = (0..parts.starts.len()).filter(|place| parts.starts[*place] > 0).collect();
    if let Some(at) = some_index(random, used.len()) {
        let start = &mut parts.starts[used[at]];
        *start = parts.links[*start as usize - 1];
    }
}

fn rows_exchanged(random: &mut Random, parts: &mut Parts) {
    if parts.rows.len() > 1 {
        let at = random.below(parts.rows.len() - 1);
        parts.rows.swap(at, at + 1);
    }
}

fn row_repeated(random: &mut Random, parts: &mut Parts) {
    if parts.rows.len() > 1 {
        let at = random.below(parts.rows.len() - 1);
        parts.rows[at] = parts.rows[at + 1];
    }
}

fn no_such_row(random: &mut Random, parts: &mut Parts) {
    if let Some(at) = some_index(random, parts.rows.len()) {
        parts.rows[at] = parts.masks.len() as u64;
    }
}

fn lane_too_long(random: &mut Random, parts: &mut Parts) {
    let long = *random.pick(&[RUN_OVER_ODD + 1, RUN_OVER_ODD + 2, 8192, 32768, 65535]);
    set_lane(random, parts, long, Vec::new());
}
