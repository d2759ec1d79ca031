//! The files that are measured, each with its answer. Numbers that look random come from one fixed generator, so every run has
//! the same files.

use crate::measure::check;
use crate::net::*;

pub struct Case {
    pub name: String,
    pub version: u8,
    pub answer: u32,
    pub bytes: Vec<u8>,
}

impl Case {
    /// The answer is asserted here, before anything is timed.
    fn new(name: &str, version: u8, answer: u32, bytes: Vec<u8>) -> Case {
        assert_eq!(check(version, &bytes), answer, "{name}");
        Case { name: name.to_string(), version, answer, bytes }
    }
}

fn flat(name: &str, answer: u32, file: &File) -> Case {
    Case::new(name, FLAT, answer, file.bytes())
}

fn tree(name: &str, answer: u32, file: &File) -> Case {
    Case::new(name, TREE, answer, file.bytes())
}

// ---- numbers that look random

struct Random(u64);

impl Random {
    fn new() -> Random {
        Random(88172645463325252)
    }

    fn next(&mut self) -> u64 {
        self.0 ^= self.0 << 13;
        self.0 ^= self.0 >> 7;
        self.0 ^= self.0 << 17;
        self.0
    }

    fn below(&mut self, n: usize) -> usize {
        (self.next() % n as u64) as usize
    }

    fn shuffle<T>(&mut self, items: &mut [T]) {
        for i in (1..items.len()).rev() {
            let j = self.below(i + 1);
            items.swap(i, j);
        }
    }
}

// ---- tables

const MOST_PATHS: usize = 255;
const MOST_NAMES: usize = 1024;
const MOST_RULES: usize = 64;
const MOST_NETS: usize = 256;
const MOST_NODES: usize = 4096;
const MOST_WIRES: usize = 65536;
const MOST_LINKS: usize = 65535;

/// Paths of 64 bytes in descending order, alike but for the last two bytes: one byte has 94 values, so it is too few for 255.
fn long_paths(n: usize) -> Vec<Vec<u8>> {
    (0..n)
        .rev()
        .map(|i| {
            let mut text = [b'p'; 64];
            text[62] = 33 + (i / 94) as u8;
            text[63] = 33 + (i % 94) as u8;
            path(&text)
        })
        .collect()
}

fn short_paths(n: usize) -> Vec<Vec<u8>> {
    (0..n).map(|i| path(format!("vi:ext:op{i:03}").as_bytes())).collect()
}

/// Names over so many paths, each with a payload of its own and up to so many children, as far as there are lower names.
fn some_names(n: usize, paths: usize, children: usize, random: &mut Random) -> Vec<Vec<u8>> {
    (0..n)
        .map(|i| {
            let k = if i == 0 { 0 } else { children };
            let below: Vec<u16> = (0..k).map(|_| random.below(i) as u16).collect();
            name((i % paths) as u16, random.next(), &below)
        })
        .collect()
}

/// Names that ascend and have the first 25 of 27 bytes in common: path, payload, and all children but the last.
fn ascending_names(n: usize) -> Vec<Vec<u8>> {
    (0..n)
        .map(|i| match i {
            0 => name(0, 0, &[]),
            _ => name(0, 0, &[0, 0, 0, 0, 0, 0, 0, i as u16 - 1]),
        })
        .collect()
}

/// Names that descend, so that each is put in before all others, and have the first 23 of 27 bytes in common. A child is lower
/// than its owner, so the last one descends within runs of 16, 32, 64 names and so on, and the last but one from run to run.
/// The first 16 have no room for that, and descend by their payload.
fn descending_names(n: usize) -> Vec<Vec<u8>> {
    (0..n)
        .map(|i| match i {
            0 => name(0, 16, &[]),
            1..=15 => name(0, 16 - i as u64, &[0; 8]),
            _ => {
                let run = i.ilog2();
                let last = (2 << run) - 1 - i;
                name(0, 0, &[0, 0, 0, 0, 0, 0, 10 - run as u16, last as u16])
            }
        })
        .collect()
}

/// Names that differ in the last two bytes of their payload only, in no order: no search can be foreseen.
fn shuffled_names(n: usize, random: &mut Random) -> Vec<Vec<u8>> {
    let mut payloads: Vec<u64> = (0..n as u64).collect();
    random.shuffle(&mut payloads);
    payloads.iter().enumerate().map(|(i, &payload)| name(0, payload, &[0; 8][..if i == 0 { 0 } else { 8 }])).collect()
}

/// The longest rules: eta with three lists of 255 paths.
fn long_rules(n: usize, paths: usize) -> Vec<Vec<u8>> {
    let list: Vec<u16> = (0..255).map(|i| (i % paths) as u16).collect();
    (0..n).map(|_| rule(5, &[&list, &list, &list])).collect()
}

// ---- nets

/// n nodes over 8 children each, with these wires at their places in this order.
fn nodes_on(places: &[u16], aux: usize) -> Vec<Vec<u8>> {
    let of = name(0, 0, &[0; 8]);
    places.chunks(aux + 1).map(|p| node(&of, p[0], &p[1..])).collect()
}

/// A well-wired net without pairs: each wire twice, in no order.
fn unpaired_net(net: u16, nodes: usize, aux: usize, random: &mut Random) -> Vec<u8> {
    let n = nodes * (aux + 1);
    let mut places: Vec<u16> = (0..n).map(|p| (p / 2) as u16).collect();
    random.shuffle(&mut places);
    flat_net(net, n as u32 / 2, &[], &[], &nodes_on(&places, aux))
}

/// All wires below 2n in n pairs, in no order but that which pairs have to be in.
fn some_pairs(n: usize, random: &mut Random) -> Vec<(u16, u16)> {
    let mut wires: Vec<u16> = (0..2 * n).map(|w| w as u16).collect();
    random.shuffle(&mut wires);
    let mut pairs: Vec<(u16, u16)> = wires.chunks(2).map(|p| (p[0].min(p[1]), p[0].max(p[1]))).collect();
    pairs.sort();
    pairs
}

/// A net of pairs alone.
fn paired_net(net: u16, pairs: usize, random: &mut Random) -> Vec<u8> {
    flat_net(net, 2 * pairs as u32, &[], &some_pairs(pairs, random), &[])
}

/// The longest net: 32,768 pairs, and 4,096 nodes with 15 aux that have each of the 65,536 wires once, in no order but that the
/// last two pairs stand in the last four places.
fn longest_net(net: u16, random: &mut Random) -> Vec<u8> {
    let pairs = some_pairs(MOST_WIRES / 2, random);
    let (others, last) = pairs.split_at(pairs.len() - 2);
    let mut places: Vec<u16> = others.iter().flat_map(|&(a, b)| [a, b]).collect();
    random.shuffle(&mut places);
    places.extend(last.iter().flat_map(|&(a, b)| [a, b]));
    flat_net(net, MOST_WIRES as u32, &[], &pairs, &nodes_on(&places, 15))
}

/// Any number of nodes, free ports and pairs together: the paired wires occur once, all others twice.
fn mixed_net(net: u16, names: &[Vec<u8>], nodes: usize, aux: usize, free: usize, pairs: usize, random: &mut Random) -> Vec<u8> {
    let n = nodes * (aux + 1) + free;
    let twice = (n - 2 * pairs) / 2;
    assert_eq!(2 * pairs + 2 * twice, n);
    let mut wires: Vec<u16> = (0..2 * pairs + twice).map(|w| w as u16).collect();
    random.shuffle(&mut wires);
    let (paired, others) = wires.split_at(2 * pairs);
    let mut joined: Vec<(u16, u16)> = paired.chunks(2).map(|p| (p[0].min(p[1]), p[0].max(p[1]))).collect();
    joined.sort();
    let mut places = [paired, others, others].concat();
    random.shuffle(&mut places);
    let (at_free, at_nodes) = places.split_at(free);
    let nodes: Vec<Vec<u8>> = at_nodes.chunks(aux + 1).map(|p| node(&names[random.below(names.len())], p[0], &p[1..])).collect();
    flat_net(net, wires.len() as u32, at_free, &joined, &nodes)
}

/// One wire between two free ports.
fn tiny_net(net: u16, wires: u32) -> Vec<u8> {
    flat_net(net, wires, &[0, 0], &[], &[])
}

// ---- flat files

/// A path, so many names with none alike, and these nets.
fn with_nets(names: usize, nets: Vec<Vec<u8>>) -> File {
    let mut file = File::flat();
    file.paths = vec![path(b"x")];
    file.names = (0..names).map(|i| name(0, i as u64, &[])).collect();
    file.nets = nets;
    file
}

fn p1() -> File {
    let mut file = with_nets(1, vec![]);
    let x = name(0, 0, &[]);
    file.rules = vec![rule(2, &[&[0]])];
    file.nets = vec![flat_net(0, 3, &[0, 1], &[], &[node(&x, 2, &[0]), node(&x, 2, &[1])])];
    file
}

/// So many nets of so many nodes, over a table of names that they are taken from.
fn program(paths: usize, names: usize, nets: usize, nodes: usize) -> File {
    let mut random = Random::new();
    let mut file = File::flat();
    file.paths = short_paths(paths);
    file.names = some_names(names, paths, 2, &mut random);
    file.rules = vec![graft(0, 1), rule(2, &[&[1, 2]]), rule(3, &[&[3], &[1, 2, 4]]), rule(4, &[&[1], &[2]]), rule(5, &[&[1], &[2, 4], &[5]])];
    let of = some_names(names, paths, 1, &mut random);
    file.nets = (0..nets).map(|i| mixed_net(i as u16, &of, nodes, 3, 4, 2, &mut random)).collect();
    file
}

fn tables(paths: Vec<Vec<u8>>, names: Vec<Vec<u8>>) -> File {
    let mut file = File::flat();
    file.paths = paths;
    file.names = names;
    file
}

/// Every table at its largest, and these nets. Path 255 is the free one.
fn full(version: u8, nets: Vec<Vec<u8>>) -> File {
    let mut file = File::new(version);
    file.paths = long_paths(MOST_PATHS);
    file.paths.push(path(FREE_PATH));
    file.names = some_names(MOST_NAMES, MOST_PATHS, 8, &mut Random::new());
    file.rules = long_rules(MOST_RULES, MOST_PATHS);
    file.nets = nets;
    file
}

/// As long as a flat file can be, free ports apart: nodes are in the last net only, since a file has 4,096 of them.
fn longest_flat() -> File {
    let random = &mut Random::new();
    let mut nets: Vec<Vec<u8>> = (0..MOST_NETS - 1).map(|i| paired_net(i as u16, MOST_WIRES / 2, random)).collect();
    nets.push(longest_net(255, random));
    full(FLAT, nets)
}

// ---- tree files

fn with_trees(names: usize, nets: Vec<Vec<u8>>) -> File {
    let mut file = with_nets(names, nets);
    file.version = TREE;
    file
}

/// Nodes one in the other, with a wire in the last one.
fn chain(depth: usize, w: u16) -> Vec<u8> {
    let x = name(0, 0, &[]);
    (0..depth).fold(wire(w), |inner, _| branching(&x, &[inner]))
}

/// Links of a wire and a chain each.
fn chains(links: usize, depth: usize) -> Vec<u8> {
    let linked: Vec<Vec<u8>> = (0..links).flat_map(|w| [wire(w as u16), chain(depth, w as u16)]).collect();
    tree_net(0, links as u32, &[], &linked)
}

/// n links of two wires, each wire twice, in no order.
fn linked_wires(net: u16, n: usize, random: &mut Random) -> Vec<u8> {
    let mut places: Vec<u16> = (0..2 * n).map(|p| (p / 2) as u16).collect();
    random.shuffle(&mut places);
    let linked: Vec<Vec<u8>> = places.iter().map(|&w| wire(w)).collect();
    tree_net(net, n as u32, &[], &linked)
}

/// n nodes with 15 wires each, two of them a link.
fn linked_nodes(net: u16, n: usize, random: &mut Random) -> Vec<u8> {
    let mut places: Vec<u16> = (0..15 * n).map(|p| (p / 2) as u16).collect();
    random.shuffle(&mut places);
    let of = name(0, 0, &[0; 8]);
    let linked: Vec<Vec<u8>> = places.chunks(15).map(|p| branching(&of, &p.iter().map(|&w| wire(w)).collect::<Vec<_>>())).collect();
    tree_net(net, 15 * n as u32 / 2, &[], &linked)
}

/// Nearly as long as a tree file can be: the last net has its nodes in place of links.
fn longest_tree() -> File {
    let random = &mut Random::new();
    let mut nets: Vec<Vec<u8>> = (0..MOST_NETS - 1).map(|i| linked_wires(i as u16, MOST_LINKS, random)).collect();
    nets.push(linked_nodes(255, MOST_NODES, random));
    full(TREE, nets)
}

// ---- the groups

pub fn legal() -> Vec<Case> {
    let random = &mut Random::new();
    let all_nodes = unpaired_net(0, MOST_NODES, 15, random);
    let all_pairs = paired_net(0, MOST_WIRES / 2, random);
    vec![
        flat("P1", 0, &p1()),
        flat("typical: 36 nodes in 4 nets", 0, &program(10, 24, 4, 9)),
        flat("large: 4,000 nodes in 16 nets", 0, &program(60, 300, 16, 250)),
        flat("255 paths of 64 bytes, 1,024 names with 8 children", 0, &tables(long_paths(MOST_PATHS), some_names(MOST_NAMES, MOST_PATHS, 8, random))),
        flat("4,096 nodes with 15 aux", 0, &with_nets(1, vec![all_nodes])),
        flat("32,768 pairs", 0, &with_nets(1, vec![all_pairs])),
        flat("256 tiny nets", 0, &with_nets(MOST_NETS, (0..MOST_NETS).map(|i| tiny_net(i as u16, 1)).collect())),
        flat("all tables full, 1 net: 32,768 pairs, 4,096 nodes", 0, &full(FLAT, vec![longest_net(0, random)])),
        flat("all tables full, 256 nets of 32,768 pairs", 0, &longest_flat()),
        tree("tree: one chain, 64 deep", 0, &with_trees(1, vec![chains(1, 64)])),
        tree("tree: 64 chains, 64 deep", 0, &with_trees(1, vec![chains(64, 64)])),
        tree("tree: 4,096 nodes with 15 wires", 0, &with_trees(1, vec![linked_nodes(0, MOST_NODES, random)])),
        tree("tree: 65,535 links", 0, &with_trees(1, vec![linked_wires(0, MOST_LINKS, random)])),
        tree("tree: all tables full, 256 nets of 65,535 links", 0, &longest_tree()),
    ]
}

fn ending_in_the_first_but_one(mut names: Vec<Vec<u8>>) -> Vec<Vec<u8>> {
    let n = names.len();
    names[n - 1] = names[1].clone();
    names
}

fn ending_in_the_last_but_one(mut items: Vec<Vec<u8>>) -> Vec<Vec<u8>> {
    let n = items.len();
    items[n - 1] = items[n - 2].clone();
    items
}

fn cut(file: &File, length: usize, set: bool) -> Vec<u8> {
    let mut bytes = file.bytes();
    bytes.truncate(length);
    if set {
        set_length(&mut bytes);
    }
    bytes
}

pub fn bad() -> Vec<Case> {
    let random = &mut Random::new();
    let one_path = || vec![path(b"x")];
    let full_net = full(FLAT, vec![longest_net(0, random)]);
    let size = full_net.bytes().len();
    let bare = name(0, 0, &[]);
    let overfull: Vec<Vec<u8>> = (0..MOST_NODES).map(|_| node(&bare, 0, &[])).collect();
    let mut deep_at_last = chains(62, 64);
    deep_at_last.truncate(deep_at_last.len() - chain(64, 0).len());
    deep_at_last.extend(chain(65, 61));
    vec![
        flat("1,024 names that descend, the second again at the end", 6, &tables(one_path(), ending_in_the_first_but_one(descending_names(MOST_NAMES)))),
        flat("1,024 names that ascend, the last one twice", 6, &tables(one_path(), ending_in_the_last_but_one(ascending_names(MOST_NAMES)))),
        flat("1,024 names in no order, the last one twice", 6, &tables(one_path(), ending_in_the_last_but_one(shuffled_names(MOST_NAMES, random)))),
        flat("1,024 names that descend, accepted", 0, &tables(one_path(), descending_names(MOST_NAMES))),
        flat("255 paths of 64 bytes that descend, the last one twice", 6, &tables(ending_in_the_last_but_one(long_paths(MOST_PATHS)), vec![])),
        flat("1,024 copies of the free path", 6, &tables(vec![path(FREE_PATH); 1024], vec![])),
        flat("65,535 copies of the free path", 6, &tables(vec![path(FREE_PATH); 65535], vec![])),
        flat("65,535 paths of 64 bytes", 5, &tables(vec![path(&[b'p'; 64]); 65535], vec![])),
        flat("256 tiny nets, each with wire counter 65,536", 0, &with_nets(MOST_NETS, (0..MOST_NETS).map(|i| tiny_net(i as u16, 65536)).collect())),
        flat("256 nets of 4,096 bare nodes", 5, &with_nets(MOST_NETS, (0..MOST_NETS).map(|i| flat_net(i as u16, 1, &[], &[], &overfull)).collect())),
        Case::new("the full file, cut in the middle", FLAT, 5, cut(&full_net, size / 2, true)),
        Case::new("the full file without its last byte", FLAT, 5, cut(&full_net, size - 1, true)),
        Case::new("the full file without its last byte, length field unchanged", FLAT, 2, cut(&full_net, size - 1, false)),
        Case::new("the full file, given to the checker of trees", TREE, 3, full_net.bytes()),
        tree("tree: 65 deep in the last link", 5, &with_trees(1, vec![deep_at_last])),
        tree("tree: 131,070 bare nodes", 5, &with_trees(1, vec![tree_net(0, 1, &[], &vec![branching(&bare, &[]); 2 * MOST_LINKS])])),
        Case::new("tree: 65,535 links without the last byte", TREE, 5, {
            let file = with_trees(1, vec![linked_wires(0, MOST_LINKS, random)]);
            cut(&file, file.bytes().len() - 1, true)
        }),
    ]
}

/// The full file with one fault each that comes as late as the check that finds it can find one.
pub fn stages() -> Vec<Case> {
    let file = full(FLAT, vec![longest_net(0, &mut Random::new())]);
    let whole = file.bytes();
    let size = whole.len();
    let mut longer = whole.clone();
    longer.push(0);
    set_length(&mut longer);
    // The nodes take 60 bytes each; the pairs stand before them and their count.
    let last_pair = size - MOST_NODES * 60 - 2 - 4;
    let mut repeated = whole.clone();
    repeated.copy_within(last_pair - 2..last_pair, last_pair + 2);
    let mut unwired = whole.clone();
    unwired.copy_within(size - 8..size - 4, size - 4);
    let mut named = full(FLAT, vec![longest_net(0, &mut Random::new())]);
    let last = named.rules.last_mut().unwrap();
    let end = last.len();
    last[end - 2..].copy_from_slice(&255u16.to_be_bytes());
    vec![
        Case::new("a byte left over", FLAT, 5, longer),
        Case::new("the last pair has a wire of the one before it", FLAT, 6, repeated),
        Case::new("the last two places hold the pair of the two before them", FLAT, 7, unwired),
        flat("the last rule names the free path in its last place", 8, &named),
    ]
}

/// Each family at four sizes, of which each is twice the one before.
pub fn families() -> Vec<(&'static str, Vec<Case>)> {
    let doubled = |most: usize| [most / 8, most / 4, most / 2, most];
    let at = |most: usize, file: &dyn Fn(usize) -> File| -> Vec<Case> {
        doubled(most).iter().map(|&n| {
            let file = file(n);
            Case::new(&n.to_string(), file.version, 0, file.bytes())
        }).collect()
    };
    let one_path = || vec![path(b"x")];
    vec![
        ("names, ascending", at(MOST_NAMES, &|n| tables(one_path(), ascending_names(n)))),
        ("names, descending", at(MOST_NAMES, &|n| tables(one_path(), descending_names(n)))),
        ("names, in no order", at(MOST_NAMES, &|n| tables(one_path(), shuffled_names(n, &mut Random::new())))),
        ("paths of 64 bytes, descending", at(MOST_PATHS, &|n| tables(long_paths(n), vec![]))),
        ("rules of 3 lists of 255 paths", at(MOST_RULES, &|n| {
            let mut file = tables(short_paths(MOST_PATHS), vec![]);
            file.rules = long_rules(n, MOST_PATHS);
            file
        })),
        ("nets, tiny", at(MOST_NETS, &|n| with_nets(n, (0..n).map(|i| tiny_net(i as u16, 1)).collect()))),
        ("nodes with 15 aux", at(MOST_NODES, &|n| with_nets(1, vec![unpaired_net(0, n, 15, &mut Random::new())]))),
        ("pairs", at(MOST_WIRES / 2, &|n| with_nets(1, vec![paired_net(0, n, &mut Random::new())]))),
        ("nets of 32,768 pairs", at(MOST_NETS, &|n| with_nets(n, (0..n).map(|i| paired_net(i as u16, MOST_WIRES / 2, &mut Random::new())).collect()))),
        ("tree: chains, 64 deep", at(64, &|n| with_trees(1, vec![chains(n, 64)]))),
        ("tree: nodes with 15 wires", at(MOST_NODES, &|n| with_trees(1, vec![linked_nodes(0, n, &mut Random::new())]))),
        ("tree: links", at(MOST_LINKS, &|n| with_trees(1, vec![linked_wires(0, n, &mut Random::new())]))),
    ]
}
