//! Split files at their limits, and by chance: lengths, improper records in every place, sums, chosen splits, buffers,
//! merges in every order, and the files of a collection read back.

use crate::grow::{ladder, tokens, BARE};
use crate::limits::{bare_text, opened};
use crate::maker::Maker;
use crate::random::Random;
use crate::splitfile::{file_of, Record, MOST, RECORD_BYTES};
use crate::splitfiles::{damage, every_bit, some_file, some_file_line, some_mask, some_records, some_trees};
use crate::verdict::judge;
use crate::words::hex;

/// Those by hand over few taxa and many, the longest files, and so many collections by chance.
pub fn splitfiles(seed: u64, count: usize) -> Vec<u8> {
    let mut random = Random::new(seed);
    let mut out = Vec::new();
    for n in [4, 5, 9, 33, 63, 64] {
        out.extend(by_hand(Random::new(random.next()), n));
    }
    out.extend(many_records(Random::new(random.next())));
    out.extend(longest_files(Random::new(random.next())));
    out.extend((0..count).flat_map(|_| by_chance(Random::new(random.next()))));
    out
}

fn by_hand(mut random: Random, n: usize) -> Vec<u8> {
    let trees = random.between(2, 5);
    let mut maker = opened(random, n, 2, 9, 200);
    maker.feed(1, b"(' ;");
    (0..trees).for_each(|_| some_tree(&mut maker));
    maker.peek();
    for part in [lengths, improper_records, sums, halves, disagreeing, most_chosen, three_files, read_back] {
        part(&mut maker);
        maker.peek();
    }
    maker.script()
}

fn some_tree(maker: &mut Maker) {
    let text = bare_text(&mut maker.random, &maker.names, 3);
    maker.text(&text);
}

impl Maker {
    fn taxa(&self) -> usize {
        self.names.len()
    }

    /// Each call on these records' file, and a merge with another file in both orders.
    fn calls_on(&mut self, records: &[Record]) {
        self.calls_on_bytes(&file_of(records));
    }

    fn calls_on_bytes(&mut self, file: &[u8]) {
        self.calls_on_file(file);
        let other = self.random.between(1, 3);
        let other = file_of(&self.some_records(other, 2));
        self.both_orders(file, &other);
    }

    fn some_records(&mut self, most: usize, trees: u64) -> Vec<Record> {
        let n = self.taxa();
        some_records(&mut self.random, n, most, trees)
    }

    fn both_orders(&mut self, a: &[u8], b: &[u8]) {
        self.ask(format!("merge {} {}", hex(a), hex(b)));
        self.ask(format!("merge {} {}", hex(b), hex(a)));
    }

    /// A call in a buffer of one element too few, of just enough and of one more.
    fn with_rooms(&mut self, line: &str, long: usize) {
        for room in [long.saturating_sub(1), long, long + 1] {
            self.ask(format!("room {room}"));
            self.ask(line);
        }
        self.ask("room -");
    }
}

// By hand

/// No record, one, and more; a byte and a record's half short and long.
fn lengths(maker: &mut Maker) {
    maker.calls_on_bytes(&[]);
    for most in [1, 2, 3, 20] {
        let records = maker.some_records(most, 5);
        let file = file_of(&records);
        maker.calls_on_bytes(&file);
        for less in [1, 8, 15] {
            maker.calls_on_bytes(&file[..file.len() - less]);
        }
        for more in [1, 8, 15] {
            maker.calls_on_bytes(&[&file[..], &vec![0; more]].concat());
        }
        let long = |text: Result<Vec<u8>, u32>| text.map_or(0, |bytes| bytes.len());
        let (strict, majority) =
            (maker.held.file_strict(&file, usize::MAX), maker.held.file_majority(&file, usize::MAX));
        let word = hex(&file);
        maker.with_rooms(&format!("records {word}"), records.len());
        maker.with_rooms(&format!("merge {word} {word}"), file.len());
        maker.with_rooms(&format!("file-strict {word}"), long(strict));
        maker.with_rooms(&format!("file-majority {word}"), long(majority));
    }
}

/// What makes record `at` of a file over n taxa improper or out of order; some need one before it or behind it.
type Fault = fn(&mut Vec<Record>, usize, usize);

const FAULTS: [Fault; 22] = [
    |records, at, _| records[at].mask = 0,
    |records, at, _| records[at].mask |= 1,
    |records, at, _| records[at].mask = 2,
    |records, at, n| records[at].mask = 1 << (n - 1),
    |records, at, n| records[at].mask = every_bit(n) - 1,
    |records, at, n| records[at].mask = every_bit(n),
    |records, at, n| records[at].mask |= 1 << (n % 64),
    |records, at, _| records[at].mask |= 1 << 63,
    |records, at, _| records[at].mask = u64::MAX - 1,
    |records, at, _| records.insert(at, records[at]),
    |records, at, _| records.swap(at, 0),
    |records, at, _| records[at..].rotate_left(1),
    |records, at, _| records[at].count = 0,
    |records, at, _| records[at].count = records[at].trees + 1,
    |records, at, _| records[at].count = MOST,
    |records, at, _| records[at].count = records[at].trees + 256,
    |records, at, _| records[at].trees += 1,
    |records, at, _| records[at].trees -= 1,
    |records, at, _| records[at].trees += 1 << 24,
    |records, at, _| (records[at].count, records[at].trees) = (1, 1),
    |records, at, _| (records[at].count, records[at].trees) = (0, 0),
    |records, at, _| (records[at].count, records[at].trees) = (MOST, MOST),
];

/// In the first, the middle and the last place, and in the only one.
fn improper_records(maker: &mut Maker) {
    for fault in FAULTS {
        for most in [1, 3, 7] {
            let good = maker.some_records(most, 300);
            for at in [0, good.len() / 2, good.len() - 1] {
                let mut records = good.clone();
                fault(&mut records, at, maker.taxa());
                maker.calls_on(&records);
            }
        }
    }
    let none = |record: &Record| Record { count: 0, trees: 0, ..*record };
    let records: Vec<Record> = maker.some_records(3, 5).iter().map(none).collect();
    maker.calls_on(&records);
}

/// Trees that add up to one less than 2^32, to 2^32 and beyond, for splits that both have and for such that one has.
fn sums(maker: &mut Maker) {
    for a in [1, 2, 256, 65_535, 1 << 31, MOST - 1, MOST] {
        for b in [MOST - a, MOST - a + 1, MOST].into_iter().filter(|b| (1..=MOST).contains(b)) {
            let masks: Vec<u64> = maker.some_records(3, 1).iter().map(|record| record.mask).collect();
            let file = |masks: &[u64], count: u64, trees: u64| {
                file_of(&masks.iter().map(|mask| Record { mask: *mask, count, trees }).collect::<Vec<Record>>())
            };
            for (of_a, of_b) in [(a, b), (1, b), (a, 1), (1, 1)] {
                maker.both_orders(&file(&masks, of_a, a), &file(&masks, of_b, b));
                maker.both_orders(&file(&masks[..1], of_a, a), &file(&masks[1..], of_b, b));
            }
        }
    }
}

/// One split that half of the trees have, one less and one more, and all but one, for trees up to 2^32 - 1.
fn halves(maker: &mut Maker) {
    for trees in [1, 2, 3, 4, 5, 255, 256, 65_536, (1 << 31) - 1, 1 << 31, (1 << 31) + 1, MOST - 1, MOST] {
        let mask = some_mask(&mut maker.random, maker.names.len());
        for count in [trees / 2 - (trees / 2).min(1), trees / 2, trees / 2 + 1, trees - 1, trees] {
            let file = hex(&file_of(&[Record { mask, count, trees }]));
            maker.ask(format!("file-strict {file}"));
            maker.ask(format!("file-majority {file}"));
        }
    }
}

/// Two splits or three that disagree, with all counts about the half and the trees; as no trees give them, mostly.
fn disagreeing(maker: &mut Maker) {
    for trees in [2, 3, MOST - 1, MOST] {
        let counts = [1, trees / 2, trees / 2 + 1, trees - 1, trees];
        for a in counts {
            for b in counts {
                let [first, second, third] = [6, 10, 12].map(|mask| Record { mask, count: a, trees });
                let second = Record { count: b, ..second };
                maker.calls_on_file(&file_of(&[first, second]));
                maker.calls_on_file(&file_of(&[first, second, third]));
                maker.calls_on_file(&file_of(&[first, Record { count: b, ..third }]));
            }
        }
    }
}

/// The splits of a binary tree, all chosen: as many as agree. Then one more, which disagrees, at any place; and one that
/// is not chosen.
fn most_chosen(maker: &mut Maker) {
    let brackets = maker.taxa() - 1;
    let tree = ladder(&mut maker.random, &maker.names, brackets);
    let text = tokens(&mut maker.random, &tree, BARE).concat();
    let masks = judge(&maker.names, &text).expect("a tree of all names");
    let all: Vec<Record> = masks.iter().map(|mask| Record { mask: *mask, count: 3, trees: 3 }).collect();
    let file = file_of(&all);
    maker.calls_on_file(&file);
    let long = maker.held.file_strict(&file, usize::MAX).map_or(0, |text| text.len());
    maker.with_rooms(&format!("file-strict {}", hex(&file)), long);
    maker.with_rooms(&format!("file-majority {}", hex(&file)), long);
    for _ in 0..12 {
        let mask = some_mask(&mut maker.random, maker.names.len());
        for count in [1, 2, 3] {
            let mut records = all.clone();
            if !masks.contains(&mask) {
                records.push(Record { mask, count, trees: 3 });
            }
            records.sort_by_key(|record| record.mask);
            maker.calls_on_file(&file_of(&records));
        }
    }
    let every: Vec<Record> = maker.some_records(200, 1);
    maker.calls_on_file(&file_of(&every));
}

/// Merged both ways, in both orders, and with themselves; one is the collection's own.
fn three_files(maker: &mut Maker) {
    for most in [1, 3, 30] {
        let own = maker.file();
        let [a, b] = [2, 1024].map(|trees| file_of(&maker.some_records(most, trees)));
        let c = *maker.random.pick(&[&own, &a]);
        both_ways(maker, &a, &b, &c.clone());
        both_ways(maker, &own, &b, &a);
    }
}

/// First with second and then with the third; second with third and then the first with these.
fn both_ways(maker: &mut Maker, a: &[u8], b: &[u8], c: &[u8]) {
    maker.both_orders(a, b);
    maker.both_orders(b, c);
    if let (Ok(of_a_b), Ok(of_b_c)) = (maker.held.merge(a, b, usize::MAX), maker.held.merge(b, c, usize::MAX)) {
        maker.both_orders(&of_a_b, c);
        maker.both_orders(a, &of_b_c);
        let all = maker.held.merge(&of_a_b, c, usize::MAX);
        all.iter().for_each(|all| maker.calls_on_file(all));
    }
}

/// The collection's file, beside what the collection answers itself, for every number of trees; in buffers of one byte too
/// few and just enough.
fn read_back(maker: &mut Maker) {
    loop {
        let file = maker.file();
        maker.ask("splits");
        maker.calls_on_file(&file);
        maker.ask("strict");
        maker.ask("majority");
        maker.with_rooms("file", file.len());
        maker.with_rooms(&format!("records {}", hex(&file)), file.len() / RECORD_BYTES);
        if maker.held.number_of_trees() == 0 {
            return;
        }
        maker.withdraw_some();
    }
}

// Many records

/// 4,095 records, 4,096, one more and more than twice as many: read, merged with the same and with others, summed up, and
/// with a fault at the end.
fn many_records(random: Random) -> Vec<u8> {
    let mut maker = opened(random, 64, 1, 5, 200);
    some_tree(&mut maker);
    for most in [4095, 4096, 4097, 10_000] {
        let trees = some_trees(&mut maker.random);
        let records = some_records(&mut maker.random, 64, most, trees);
        let (file, few) = (file_of(&records), file_of(&maker.some_records(40, 9)));
        maker.calls_on_file(&file);
        maker.both_orders(&file, &few);
        maker.with_rooms(&format!("records {}", hex(&file)), records.len());
        maker.with_rooms(&format!("merge {} {}", hex(&few), hex(&file)), few.len() + file.len());
        let mut wrong = records.clone();
        wrong[most - 1].count = 0;
        maker.calls_on_file(&file_of(&wrong));
        maker.peek();
    }
    maker.script()
}

/// The longest line, which has 524,288 records; two files of together as many; and a majority tree of one less.
fn longest_files(random: Random) -> Vec<u8> {
    let mut maker = opened(random, 64, 1, 1, 1);
    let record = |i: u64| Record { mask: (3 << 40) + 2 * i, count: 1 + u64::from(i == 70_000), trees: 3 };
    let all: Vec<Record> = (0..524_288).map(record).collect();
    let (even, odd): (Vec<Record>, Vec<Record>) = all.iter().partition(|record| record.mask % 4 == 0);
    maker.ask(format!("records {}", hex(&file_of(&all))));
    maker.ask(format!("merge {} {}", hex(&file_of(&odd)), hex(&file_of(&even))));
    maker.ask(format!("file-majority {}", hex(&file_of(&all[..all.len() - 1]))));
    maker.script()
}

// By chance

/// A collection between whose calls files are made, kept, merged and damaged.
fn by_chance(mut random: Random) -> Vec<u8> {
    let n = *random.pick(&[4, 5, 6, 7, 8, 12, 20, 64]);
    let mut maker = opened(random, n, 1, 12, 150);
    for _ in 0..maker.random.between(5, 20) {
        match maker.random.below(6) {
            0 => maker.withdraw_some(),
            1 => maker.file_calls(),
            2 => merged_and_kept(&mut maker),
            3 => damaged(&mut maker),
            _ => some_tree(&mut maker),
        }
        let line = some_file_line(&mut maker.random, n, &maker.kept);
        maker.ask(line);
    }
    maker.peek();
    maker.questions();
    maker.script()
}

/// What comes of two files is kept for calls behind it.
fn merged_and_kept(maker: &mut Maker) {
    let own = maker.file();
    let other = some_file(&mut maker.random, maker.names.len());
    maker.both_orders(&own, &other);
    if let Ok(merged) = maker.held.merge(&own, &other, usize::MAX) {
        maker.calls_on_file(&merged);
        maker.kept.push(merged);
    }
}

/// Every call on a file with one damage, and on the same file mended.
fn damaged(maker: &mut Maker) {
    let trees = some_trees(&mut maker.random);
    let file = file_of(&maker.some_records(6, trees));
    let mut other = file.clone();
    damage(&mut maker.random, &mut other);
    maker.calls_on_bytes(&other);
    maker.calls_on_bytes(&file);
}
