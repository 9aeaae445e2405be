//! Small collections by chance, as our program makes them and as this one does by docs/STORE.md.

use crate::changes::{CHANGES, FAULTS};
use crate::claims::{claim_line, some_claim};
use crate::generator::one_text;
use crate::grow::{names, shape, text_of};
use crate::maker::{every_call, joined, Maker};
use crate::opening::Numbers;
use crate::parts::Parts;
use crate::random::Random;
use crate::verdict::MOST_BYTES;
use crate::words::hex;

/// So many collections, each peeked when it is opened, filled and asked.
pub fn stores(seed: u64, count: usize) -> Vec<u8> {
    let mut random = Random::new(seed);
    (0..count).flat_map(|_| small_collection(Random::new(random.next())).script()).collect()
}

/// Some trees, of which some are withdrawn, and something in the lanes.
fn small_collection(mut random: Random) -> Maker {
    let n = *random.pick(&[4, 5, 5, 6, 7, 8, 12, 64]);
    let names = names(&mut random, n);
    let split_room = random.between(n, 4 * n) as u64;
    let numbers = Numbers {
        taxa: n as u64,
        lanes: random.between(1, 3) as u64,
        tree_room: random.between(1, 12) as u64,
        split_room,
        places: random.between(1, 2 * split_room as usize) as u64,
        lengths: random.one_in(2),
    };
    // Room for the lengths, if a damage says that they are kept.
    let spare = *random.pick(&[0, 1, 300, 512 * numbers.tree_room]);
    let mut maker = Maker::open(random, names, numbers, spare);
    maker.peek();
    let most_children = *maker.random.pick(&[2, 3, 6]);
    for _ in 0..maker.random.below(14) {
        let shape = shape(&mut maker.random, &maker.names, most_children);
        let text = text_of(&mut maker.random, &shape);
        maker.text(&text);
        if maker.random.one_in(4) {
            maker.withdraw_some();
            maker.peek();
        }
    }
    fill_lanes(&mut maker);
    if maker.random.one_in(3) {
        maker.withdraw_some();
    }
    maker.questions();
    maker.peek();
    maker
}

pub fn fill_lanes(maker: &mut Maker) {
    for lane in 0..maker.numbers.lanes {
        match maker.random.below(8) {
            0 => drop(maker.feed(lane, &vec![b' '; MOST_BYTES + 1])),
            1 => drop(maker.feed(lane, b"((")),
            2 => drop(maker.feed(lane, &vec![b'\n'; MOST_BYTES])),
            3 => drop(maker.feed(lane, &vec![b'\''; MOST_BYTES + 1])),
            4 => drop(maker.feed(lane, b"('A;B")),
            _ => (),
        }
    }
}

/// So many stores poked into lent memory: their splits in any order, their unused bytes of any value; whole ones
/// and such that break one rule.
pub fn made(seed: u64, count: usize) -> Vec<u8> {
    let mut random = Random::new(seed);
    (0..count).flat_map(|i| made_store(Random::new(random.next()), i)).collect()
}

fn made_store(mut random: Random, i: usize) -> Vec<u8> {
    let (maker, bytes) = made_bytes(&mut random, i);
    let lent = maker.lent.max(bytes.len() as u64);
    let mut lines = vec![format!("lend {lent}"), format!("poke 0 {}", hex(&bytes))];
    lines.extend(calls_on(&mut random, &maker));
    lines.push(format!("peek 0 {lent}"));
    joined(&lines)
}

/// The bytes of a store: whole, with the next change, or with the next fault.
pub fn made_bytes(random: &mut Random, i: usize) -> (Maker, Vec<u8>) {
    let maker = small_collection(Random::new(random.next()));
    let mut masks: Vec<u64> = maker.held.counts().keys().copied().collect();
    random.shuffle(&mut masks);
    let mut parts = Parts::of(&maker.held, masks);
    match i % 3 {
        0 => (),
        1 => CHANGES[i / 3 % CHANGES.len()](random, &mut parts),
        _ => FAULTS[i / 3 % FAULTS.len()](random, &mut parts),
    }
    let fill = random.below(256) as u8;
    let mut bytes = vec![fill; parts.numbers.size().expect("numbers in range") as usize];
    parts.write(&mut bytes);
    (maker, bytes)
}

/// Every call, texts that may be accepted, withdrawals, and claims.
fn calls_on(random: &mut Random, maker: &Maker) -> Vec<String> {
    let tree = shape(random, &maker.names, 3);
    let text = [one_text(random, &maker.names, &[tree]), b";".to_vec()].concat();
    let mut lines = every_call(&text);
    lines.extend(["close 0".to_string(), format!("feed 0 {}", hex(&text))]);
    lines.extend((0..random.below(3)).map(|_| format!("withdraw {}", random.below(3))));
    let behind =
        ["splits", "matrix", "majority", "strict", "both", "collisions", "weighted 0 2", "lengths 2", "phylip"];
    lines.extend(behind.map(str::to_string));
    lines.extend((0..3).map(|_| claim_line(&some_claim(random, &maker.names, Some(&maker.held)))));
    lines
}
