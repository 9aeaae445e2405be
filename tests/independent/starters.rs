//! The runs of samples/: candidate trees over 40 starter strains as NEXUS files with lists of keys, most of whose groups
//! come up again and again, some more often than others, and some texts damaged.

use crate::grow::{Name, Shape};
use crate::labels::{quoted, unquoted, written_name, written_names};
use crate::random::Random;

/// As they read; those of a group stand side by side.
const STRAINS: [&str; 40] = [
    "Pr. freudenreichii 15",
    "Pr. freudenreichii (Emmental)",
    "Pr. shermanii 17",
    "B. lactis 29",
    "B. lactis BB_12",
    "E. faecium 26",
    "E. durans 34",
    "Pc. acidilactici 23",
    "Pc. pentosaceus 24",
    "Lb. casei 2",
    "Lb. casei 13",
    "Lb. paracasei 27",
    "Lb. paracasei 28",
    "Lb. rhamnosus 10",
    "Lb. helveticus 4",
    "Lb. helveticus 5",
    "Lb. helveticus (Sbrinz)",
    "Lb. delbrueckii J_2",
    "Lb. delbrueckii J_7",
    "Lb. bulgaricus 1",
    "Lb. bulgaricus 6",
    "Lb. bulgaricus 16",
    "Ln. mesenteroides 2",
    "Ln. mesenteroides 'Alp'",
    "Ln. mesenteroides d'Aoste",
    "Ln. cremoris 19",
    "St. thermophilus 9",
    "St. thermophilus 11",
    "St. thermophilus (M17)",
    "St. thermophilus (M20)",
    "L. lactis 12",
    "L. lactis 14",
    "L. lactis 31",
    "L. lactis 40",
    "L. diacetylactis 5",
    "L. diacetylactis 8",
    "L. cremoris 3",
    "L. cremoris 7",
    "L. cremoris 22",
    "L. cremoris K_9",
];

/// A group: its first and its last strain, and in how many of a hundred trees it is put.
#[derive(Clone, Copy, PartialEq)]
struct Group(usize, usize, usize);

/// Any two agree.
const GROUPS: [Group; 33] = [
    Group(2, 39, 64),
    Group(3, 39, 100),
    Group(3, 4, 96),
    Group(5, 39, 90),
    Group(5, 6, 93),
    Group(7, 25, 62),
    Group(7, 13, 30),
    Group(7, 8, 86),
    Group(9, 13, 97),
    Group(9, 12, 56),
    Group(9, 10, 70),
    Group(11, 12, 84),
    Group(14, 21, 94),
    Group(14, 16, 91),
    Group(15, 16, 60),
    Group(17, 21, 83),
    Group(17, 18, 98),
    Group(19, 21, 92),
    Group(20, 21, 25),
    Group(22, 25, 95),
    Group(22, 24, 55),
    Group(23, 24, 72),
    Group(26, 39, 78),
    Group(26, 29, 99),
    Group(27, 29, 20),
    Group(28, 29, 95),
    Group(30, 39, 100),
    Group(30, 35, 86),
    Group(30, 33, 50),
    Group(30, 31, 88),
    Group(34, 35, 98),
    Group(36, 39, 92),
    Group(36, 37, 35),
];

/// Strains that change places are both of the same one of these.
const PARTS: [(usize, usize); 2] = [(3, 29), (30, 39)];

/// One in so many texts is damaged, tree 17 of a file first.
const DAMAGED: (usize, usize) = (16, 23);

/// The names' line.
pub fn name_list() -> Vec<u8> {
    let names = STRAINS.map(|name| name.as_bytes().to_vec());
    [written_names(&names, b' '), b"\n".to_vec()].concat()
}

/// A run of so many trees: of an odd seed as MrBayes writes them, with lengths and names in quotes, of an even one as PAUP
/// does.
pub fn run(seed: u64, count: usize) -> Vec<u8> {
    let mut random = Random::new(seed);
    let manner = if seed % 2 == 1 { &MRBAYES } else { &PAUP };
    let mut out = manner.head.as_bytes().to_vec();
    for (i, name) in STRAINS.iter().enumerate() {
        let name = if manner.lengths { quoted(name.as_bytes()) } else { written_name(name.as_bytes()) };
        let ends = if i + 1 < STRAINS.len() { ",\n" } else { manner.list_end };
        out.extend([manner.key(i + 1).as_bytes(), &name, ends.as_bytes()].concat());
    }
    for i in 0..count {
        let text = text(&mut random, manner, i, count);
        out.extend(format!("{}{} = [&U] {text};\n", manner.tree, manner.number(i)).into_bytes());
    }
    out.extend(manner.end.as_bytes());
    out
}

// Manners

/// How a program writes its trees.
struct Manner {
    head: &'static str,
    before_key: &'static str,
    list_end: &'static str,
    tree: &'static str,
    end: &'static str,
    /// Every node has a length, and every node two children; else neither.
    lengths: bool,
}

const MRBAYES: Manner = Manner {
    head: "#NEXUS\n[ID: 7302914658]\n[Param: tree]\nbegin trees;\n   translate\n",
    before_key: "      ",
    list_end: ";\n",
    tree: "   tree gen.",
    end: "end;\n",
    lengths: true,
};

const PAUP: Manner = Manner {
    head: "#NEXUS \n\nBegin trees;  [Treefile saved Mon Nov 16 03:10:54 2026]\n\tTranslate\n",
    before_key: "\t\t",
    list_end: "\n\t\t;\n",
    tree: "tree PAUP_",
    end: "End;\n",
    lengths: false,
};

impl Manner {
    fn key(&self, key: usize) -> String {
        format!("{}{key} ", self.before_key)
    }

    /// The number in the name of tree i.
    fn number(&self, i: usize) -> usize {
        if self.lengths {
            500 * i
        } else {
            i + 1
        }
    }
}

// Trees

/// The text of tree i of so many. The first tenth is the warm-up, in which half of the groups that can be missing are.
fn text(random: &mut Random, manner: &Manner, i: usize, count: usize) -> String {
    let is_warm_up = 10 * i < count;
    let kept = |random: &mut Random, percent: usize| {
        percent == 100 || random.below(100) < percent && !(is_warm_up && random.one_in(2))
    };
    let groups: Vec<Group> = GROUPS.into_iter().filter(|Group(_, _, percent)| kept(random, *percent)).collect();
    let resolved = manner.lengths || random.one_in(3);
    let mut tree = grown(random, Group(0, STRAINS.len() - 1, 100), &groups, resolved);
    if random.one_in(if is_warm_up { 2 } else { 12 }) {
        tree = exchanged(random, &tree);
    }
    let damage = (i % DAMAGED.1 == DAMAGED.0).then_some(i / DAMAGED.1 % 4);
    if let Some(kind) = damage {
        tree = damaged(random, &tree, kind);
    }
    let text = written(random, &tree, manner.lengths);
    if damage == Some(3) {
        return text.replacen(')', "", 1);
    }
    text
}

/// A node with the strains of a group: the largest groups inside, and the strains that are in none.
fn grown(random: &mut Random, node: Group, groups: &[Group], resolved: bool) -> Shape {
    let Group(first, last, _) = node;
    let inside: Vec<Group> =
        groups.iter().filter(|group| first <= group.0 && group.1 <= last && **group != node).copied().collect();
    let mut children = Vec::new();
    let mut next = first;
    while next <= last {
        let with_it = inside.iter().filter(|group| group.0 == next).max_by_key(|group| group.1);
        children.push(match with_it {
            Some(group) => grown(random, *group, &inside, resolved),
            None => Shape::Leaf(key_of(next)),
        });
        next = with_it.map_or(next, |group| group.1) + 1;
    }
    let at_most = match resolved {
        true if first == 0 => 3,
        true => 2,
        false => children.len(),
    };
    joined(random, children, at_most)
}

/// Two by two at random, until at most so many are left.
fn joined(random: &mut Random, mut parts: Vec<Shape>, at_most: usize) -> Shape {
    while parts.len() > at_most {
        let pair = [(); 2].map(|()| parts.remove(random.below(parts.len())));
        parts.push(Shape::Inner(pair.to_vec()));
    }
    Shape::Inner(parts)
}

fn relabelled(shape: &Shape, change: &dyn Fn(&Name) -> Name) -> Shape {
    match shape {
        Shape::Leaf(key) => Shape::Leaf(change(key)),
        Shape::Inner(children) => Shape::Inner(children.iter().map(|child| relabelled(child, change)).collect()),
    }
}

/// Keys are counted from 1.
fn key_of(strain: usize) -> Name {
    (strain + 1).to_string().into_bytes()
}

/// Two strains in each other's places.
fn exchanged(random: &mut Random, tree: &Shape) -> Shape {
    let (first, last) = *random.pick(&PARTS);
    let [a, b] = [(); 2].map(|()| key_of(random.between(first, last)));
    let change = |key: &Name| {
        if *key == a {
            b.clone()
        } else if *key == b {
            a.clone()
        } else {
            key.clone()
        }
    };
    relabelled(tree, &change)
}

/// Kind 0 a leaf that names no strain, 1 a strain twice, 2 one that is missing; 3 is a fault of form.
fn damaged(random: &mut Random, tree: &Shape, kind: usize) -> Shape {
    let key = key_of(random.below(STRAINS.len()));
    let other = match kind {
        0 => unquoted(b"L. lactis 13").expect("a name without marks"),
        1 if key == b"1" => b"2".to_vec(),
        1 => b"1".to_vec(),
        2 => return without(tree, &key).expect("other strains"),
        _ => return tree.clone(),
    };
    relabelled(tree, &|old| if *old == key { other.clone() } else { old.clone() })
}

/// A node of one child is that child.
fn without(shape: &Shape, key: &Name) -> Option<Shape> {
    match shape {
        Shape::Leaf(other) => (other != key).then(|| shape.clone()),
        Shape::Inner(children) => {
            let mut left: Vec<Shape> = children.iter().filter_map(|child| without(child, key)).collect();
            if left.len() == 1 {
                return left.pop();
            }
            Some(Shape::Inner(left))
        }
    }
}

fn written(random: &mut Random, tree: &Shape, lengths: bool) -> String {
    match tree {
        Shape::Leaf(key) => String::from_utf8(key.clone()).expect("a key"),
        Shape::Inner(children) => {
            let child = |child: &Shape| {
                let text = written(random, child, lengths);
                let length = if lengths { format!(":0.{:04}", random.between(1, 1999)) } else { String::new() };
                text + &length
            };
            format!("({})", children.iter().map(child).collect::<Vec<String>>().join(","))
        }
    }
}
