//! The files that the conversions and pruning are measured on, beside the original: families at three sizes each.

use crate::net::*;

#[derive(Clone, Copy, PartialEq)]
pub enum Call {
    FlatFromTree,
    TreeFromFlat,
    ResolveFlat,
    ResolveTree,
    Prune,
}

pub const CALLS: [(Call, &str); 5] = [
    (Call::FlatFromTree, "flat_from_tree"),
    (Call::TreeFromFlat, "tree_from_flat"),
    (Call::ResolveFlat, "resolve_flat"),
    (Call::ResolveTree, "resolve_tree"),
    (Call::Prune, "prune"),
];

pub struct Case {
    pub call: Call,
    pub family: &'static str,
    pub size: usize,
    pub bytes: Vec<u8>,
    pub entries: Vec<u32>,
}

const LARGE_NETS: usize = 4;
const NODES: [usize; 3] = [40, 400, 4000];
const NETS: [usize; 3] = [16, 64, 256];
const CHAINS: [usize; 3] = [2, 10, 60];
const DEPTH: usize = 64;
const HANGING: usize = 60;
const LINKS: [usize; 3] = [500, 5000, 50_000];
const PAIRS: [usize; 3] = [300, 3000, 30_000];
const MOST_WIRES: u32 = 65_536;

fn nodes_name() -> Vec<u8> {
    name(0, 7, &[0])
}

/// Places 0 to n - 1 in an order that jumps about; 7919 is a prime that divides none of the lengths used here.
fn scattered(n: usize) -> Vec<usize> {
    assert!(n % 7919 != 0);
    (0..n).map(|p| p * 7919 % n).collect()
}

fn file(version: u8, nets: Vec<Vec<u8>>) -> Vec<u8> {
    let mut file = File::new(version);
    file.paths = vec![path(b"x"), path(b"value")];
    file.names = (0..nets.len()).map(|i| name(1, i as u64, &[])).collect();
    file.nets = nets;
    file.bytes()
}

// ---- nodes on wires, each wire twice

/// Nodes of so many aux, with the wires of each.
fn wired(nodes: usize, aux: usize) -> Vec<Vec<u16>> {
    let places: Vec<u16> = scattered(nodes * (aux + 1)).iter().map(|p| (p / 2) as u16).collect();
    places.chunks(aux + 1).map(|p| p.to_vec()).collect()
}

fn flat_of(number: usize, wires: u32, pairs: &[(u16, u16)], nodes: &[Vec<u16>]) -> Vec<u8> {
    let of = nodes_name();
    let nodes: Vec<_> = nodes.iter().map(|p| node(&of, p[0], &p[1..])).collect();
    flat_net(number as u16, wires, &[], pairs, &nodes)
}

/// The same as trees: a link of a wire and a node for each.
fn tree_of(number: usize, wires: u32, nodes: &[Vec<u16>]) -> Vec<u8> {
    let of = nodes_name();
    let branches = |p: &[u16]| p[1..].iter().map(|&w| wire(w)).collect::<Vec<_>>();
    let linked: Vec<_> = nodes.iter().flat_map(|p| [wire(p[0]), branching(&of, &branches(p))]).collect();
    tree_net(number as u16, wires, &[], &linked)
}

fn nets_of(version: u8, nets: usize, nodes: usize, aux: usize, wires: u32) -> Vec<u8> {
    let wired = wired(nodes, aux);
    let net = |i| if version == FLAT { flat_of(i, wires, &[], &wired) } else { tree_of(i, wires, &wired) };
    file(version, (0..nets).map(net).collect())
}

fn large_nets(version: u8, n: usize) -> Vec<u8> {
    let nodes = n / LARGE_NETS;
    nets_of(version, LARGE_NETS, nodes, 3, 2 * nodes as u32)
}

fn tiny_nets(version: u8, n: usize) -> Vec<u8> {
    nets_of(version, n, 2, 2, 3)
}

/// Tiny nets whose wire counters are as great as can be: the new wires of to_flat have to fit, two for each net.
fn tiny_wide_nets(version: u8, n: usize) -> Vec<u8> {
    nets_of(version, n, 2, 2, MOST_WIRES - 2)
}

fn wide_nodes(version: u8, n: usize) -> Vec<u8> {
    nets_of(version, 1, n, 15, 8 * n as u32)
}

// ---- trees

/// A leaf that hangs on the one free wire: while a tree hangs, every tree of the net is visited.
fn hanging_leaf(w: u16) -> (Vec<Vec<u8>>, Vec<Vec<u8>>) {
    (vec![wire(w)], vec![wire(w), branching(&nodes_name(), &[])])
}

/// Nodes in nodes, 64 deep, with a wire beside each, from this wire on.
fn deep(first: usize) -> Vec<u8> {
    let of = nodes_name();
    (0..DEPTH).fold(wire((first + DEPTH) as u16), |tree, j| branching(&of, &[wire((first + j) as u16), tree]))
}

/// Two deep trees on the same wires hang on one wire, n / 2 times.
fn deep_trees(n: usize) -> Vec<u8> {
    let (free, mut linked) = hanging_leaf(0);
    for i in 0..n / 2 {
        let first = 1 + i * (DEPTH + 2);
        let meeting = wire((first + DEPTH + 1) as u16);
        linked.extend([meeting.clone(), deep(first), deep(first), meeting]);
    }
    file(TREE, vec![tree_net(0, (1 + n / 2 * (DEPTH + 2)) as u32, &free, &linked)])
}

/// One chain of n wires, each linked with the next.
fn chain_of_links(n: usize) -> Vec<u8> {
    let (mut free, mut linked) = hanging_leaf(0);
    linked.extend((1..=n).flat_map(|w| [wire(w as u16), wire(w as u16 + 1)]));
    free.extend([wire(1), wire(n as u16 + 1)]);
    file(TREE, vec![tree_net(0, n as u32 + 2, &free, &linked)])
}

/// Chains of 60 nodes, written in no order: each hangs on a wire that is linked with the one wire of the node above it, and a
/// node of its own hangs on the first's wire.
fn hanging_trees(n: usize) -> Vec<u8> {
    let of = nodes_name();
    let above = |i: usize| wire(1 + 2 * i as u16);
    let below = |i: usize| wire(2 + 2 * i as u16);
    let last = |i: usize| i % HANGING == HANGING - 1 || i == n - 1;
    let (free, mut linked) = hanging_leaf(0);
    for i in scattered(n) {
        if i % HANGING == 0 {
            linked.extend([above(i), branching(&of, &[])]);
        }
        if last(i) {
            linked.extend([above(i), branching(&of, &[])]);
        } else {
            linked.extend([above(i), branching(&of, &[below(i)]), below(i), above(i + 1)]);
        }
    }
    file(TREE, vec![tree_net(0, 1 + 2 * n as u32, &free, &linked)])
}

// ---- wires near the greatest

/// Nets of two links, each of a small wire and of one near the greatest; all four are free wires too.
fn far_links(n: usize) -> Vec<u8> {
    let ends = [2, 65_533, 3, 65_532].map(wire);
    file(TREE, (0..n).map(|i| tree_net(i as u16, MOST_WIRES, &ends, &ends)).collect())
}

/// Nets of two nodes that hang in one another in a vicious circle, one of them on a wire near the greatest.
fn far_circles(n: usize) -> Vec<u8> {
    let of = nodes_name();
    let on = |a, b| [wire(a), branching(&of, &[wire(b)])];
    let linked = [on(2, 65_533), on(65_533, 2)].concat();
    file(TREE, (0..n).map(|i| tree_net(i as u16, MOST_WIRES, &[], &linked)).collect())
}

// ---- pairs

/// n pairs, half of them at places of nodes and half nowhere.
fn pairs(n: usize) -> Vec<u8> {
    let pairs: Vec<_> = (0..n).map(|i| (2 * i as u16, 2 * i as u16 + 1)).collect();
    let places: Vec<u16> = scattered(n / 2 * 2).iter().map(|&p| p as u16).collect();
    let nodes: Vec<_> = places.chunks(15).map(|p| p.to_vec()).collect();
    file(FLAT, vec![flat_of(0, 2 * n as u32, &pairs, &nodes)])
}

// ---- pruning

/// A chain of n nets of 15 nodes: each node names the next net.
fn named_nets(n: usize) -> Vec<u8> {
    let mut file = File::flat();
    file.paths = vec![path(b"x"), path(b"value")];
    file.names = (0..=n).map(|i| name(1, i as u64, &[])).collect();
    let net = |i: usize| {
        let next = name(1, (i + 1) as u64, &[]);
        let nodes: Vec<_> = wired(15, 1).iter().map(|p| node(&next, p[0], &p[1..])).collect();
        flat_net(i as u16, 15, &[], &[], &nodes)
    };
    file.nets = (0..n).map(net).collect();
    file.bytes()
}

pub fn cases() -> Vec<Case> {
    let mut cases = vec![];
    for (call, _) in CALLS {
        let mut add = |family, sizes: [usize; 3], make: &dyn Fn(usize) -> (Vec<u8>, Vec<u32>)| {
            for size in sizes {
                let (bytes, entries) = make(size);
                cases.push(Case { call, family, size, bytes, entries });
            }
        };
        let version = if matches!(call, Call::FlatFromTree | Call::ResolveTree) { TREE } else { FLAT };
        if call == Call::Prune {
            add("nets, all reached", NETS, &|n| (named_nets(n), vec![0]));
            add("nets, none reached", NETS, &|n| (named_nets(n), vec![n as u32]));
            add("nets, no entries", NETS, &|n| (named_nets(n), vec![]));
            add("nodes of few large nets", NODES, &|n| (large_nets(FLAT, n), vec![1]));
            continue;
        }
        add("nodes of few large nets", NODES, &|n| (large_nets(version, n), vec![]));
        add("tiny nets", NETS, &|n| (tiny_nets(version, n), vec![]));
        add("tiny nets, great counters", NETS, &|n| (tiny_wide_nets(version, n), vec![]));
        add("wide nodes", NODES, &|n| (wide_nodes(version, n), vec![]));
        if version == FLAT {
            add("pairs", PAIRS, &|n| (pairs(n), vec![]));
            continue;
        }
        add("deep trees", CHAINS, &|n| (deep_trees(n), vec![]));
        add("links in one chain", LINKS, &|n| (chain_of_links(n), vec![]));
        add("trees that hang in trees", NODES, &|n| (hanging_trees(n), vec![]));
        add("links of far wires", NETS, &|n| (far_links(n), vec![]));
        if call == Call::ResolveTree {
            add("circles of far wires", NETS, &|n| (far_circles(n), vec![]));
        }
    }
    cases
}
