//! The files that the optimiser and the original are measured on: six families, each at three sizes. All have the same five
//! rules, so that finding a rule costs alike in each.

use crate::net::*;

pub const SIZES: [usize; 3] = [30, 300, 4000];

pub struct Case {
    pub family: &'static str,
    pub nodes: usize,
    pub bytes: Vec<u8>,
}

const X: u16 = 0;
const Y: u16 = 1;
const ERASER: u16 = 2;
const VALUE: u16 = 3;
const COMBINATOR: u16 = 4;
const NIL: u16 = 5;
const GRAFT: u16 = 6;
const PATHS: [&[u8]; 7] = [b"x", b"y", b"eraser", b"value", b"combinator", b"nil", b"graft"];

const NO_LIMIT: u32 = u32::MAX;
/// A grid of k by k takes k * k steps: the largest would take four million.
const GRID_LIMIT: u32 = 20_000;
const GRAFTS: usize = 3;

/// A net while it is made.
#[derive(Default)]
struct Net {
    wires: u16,
    free: Vec<u16>,
    nodes: Vec<Vec<u8>>,
}

impl Net {
    fn wire(&mut self) -> u16 {
        self.wires += 1;
        self.wires - 1
    }

    fn node(&mut self, path: u16, principal: u16, aux: &[u16]) {
        self.nodes.push(node(&name(path, 0, &[]), principal, aux));
    }

    fn written(&self, number: u16) -> Vec<u8> {
        flat_net(number, self.wires as u32, &self.free, &[], &self.nodes)
    }
}

/// Two chains face to face: each annihilation brings the next two nodes together, n / 2 steps.
fn annihilation(n: usize) -> Net {
    let mut net = Net::default();
    let (mut left, mut right) = (net.wire(), 0);
    for _ in 0..n / 2 {
        let (a, b, side) = (net.wire(), net.wire(), net.wire());
        net.node(X, left, &[a, side]);
        net.node(X, right, &[b, side]);
        (left, right) = (a, b);
    }
    net.free = vec![left, right];
    net
}

/// A binary tree under this node, with leaves of one port; wires are taken breadth first.
fn tree(net: &mut Net, root: u16, path: u16, leaf: u16, inner: usize) {
    let mut open = std::collections::VecDeque::from([root]);
    for _ in 0..inner {
        let (p, a, b) = (open.pop_front().unwrap(), net.wire(), net.wire());
        net.node(path, p, &[a, b]);
        open.extend([a, b]);
    }
    open.into_iter().for_each(|p| net.node(leaf, p, &[]));
}

/// An eraser at the root of a binary tree: each node of the tree is one step.
fn erasure(n: usize) -> Net {
    let mut net = Net::default();
    let root = net.wire();
    net.node(ERASER, root, &[]);
    tree(&mut net, root, X, VALUE, (n - 2) / 2);
    net
}

/// Two chains of different nodes that pass through each other, k * k steps for k = n / 2.
fn commutation(n: usize) -> Net {
    let mut net = Net::default();
    let meeting = net.wire();
    for path in [X, Y] {
        let mut last = meeting;
        for _ in 0..n / 2 {
            let next = net.wire();
            net.node(path, last, &[next]);
            last = next;
        }
        net.free.push(last);
    }
    net
}

/// A tree of combinators over equal nils, which folds up from its leaves; and a row of pairs of combinators that are wired
/// straight across, of which a wire is left.
fn eta(n: usize) -> Net {
    let mut net = Net::default();
    let root = net.wire();
    tree(&mut net, root, COMBINATOR, NIL, n / 4);
    let first = net.wire();
    let mut last = first;
    for _ in 0..n / 4 {
        let (a, b, next) = (net.wire(), net.wire(), net.wire());
        net.node(COMBINATOR, last, &[a, b]);
        net.node(COMBINATOR, next, &[a, b]);
        last = next;
    }
    net.free = vec![root, first, last];
    net
}

/// A net of m nodes at rest, and one with graft nodes that name it as `number`.
fn grafts(m: usize, number: u16) -> [Net; 2] {
    let mut named = Net::default();
    let mut last = named.wire();
    named.free = vec![last];
    for _ in 0..m - 1 {
        let next = named.wire();
        named.node(X, last, &[next]);
        last = next;
    }
    named.node(VALUE, last, &[]);
    let mut user = Net::default();
    for _ in 0..GRAFTS {
        let w = user.wire();
        user.free.push(w);
        user.nodes.push(node(&name(GRAFT, 0, &[number]), w, &[]));
    }
    [named, user]
}

fn file(limit: u32, nets: &[Net]) -> Vec<u8> {
    let mut file = File::flat();
    file.limit = limit;
    file.paths = PATHS.iter().map(|p| path(p)).collect();
    file.names = (0..nets.len()).map(|i| name(VALUE, i as u64, &[])).collect();
    file.rules = vec![
        graft(GRAFT, 0),
        rule(2, &[&[X]]),
        rule(3, &[&[ERASER], &[X, Y, VALUE, ERASER]]),
        rule(4, &[&[X], &[Y]]),
        rule(5, &[&[COMBINATOR], &[VALUE], &[NIL]]),
    ];
    file.nets = nets.iter().enumerate().map(|(i, net)| net.written(i as u16)).collect();
    file.bytes()
}

/// A fifth of each; the grid is kept small, or there would be little else.
fn mix(n: usize) -> Vec<Net> {
    let fifth = n / 5;
    let mut nets: Vec<Net> = grafts(fifth / (GRAFTS + 1) + 1, 0).into();
    nets.extend([annihilation(fifth), erasure(fifth), commutation(fifth.min(100)), eta(fifth)]);
    nets
}

pub fn cases() -> Vec<Case> {
    let mut cases = vec![];
    let mut add = |family, nodes, bytes| cases.push(Case { family, nodes, bytes });
    for n in SIZES {
        add("annihilation chains", n, file(NO_LIMIT, &[annihilation(n)]));
    }
    for n in SIZES {
        add("erasure trees", n, file(NO_LIMIT, &[erasure(n)]));
    }
    for n in SIZES {
        add("commutation grids", n, file(GRID_LIMIT, &[commutation(n)]));
    }
    for n in SIZES {
        add("eta towers", n, file(NO_LIMIT, &[eta(n)]));
    }
    for n in SIZES {
        add("grafts of large nets", n, file(NO_LIMIT, &grafts(n / (GRAFTS + 1), 0)));
    }
    for n in SIZES {
        add("mix", n, file(NO_LIMIT, &mix(n)));
    }
    cases
}
