//! Writes net files field by field, as docs/FORMAT.md lists them. It checks nothing: bad files are written with it too.

pub const FLAT: u8 = 1;
pub const TREE: u8 = 65;
pub const FREE_PATH: &[u8] = b"ivy:engine:free";

pub struct File {
    pub version: u8,
    pub limit: u32,
    pub paths: Vec<Vec<u8>>,
    pub names: Vec<Vec<u8>>,
    pub rules: Vec<Vec<u8>>,
    pub nets: Vec<Vec<u8>>,
}

impl File {
    pub fn new(version: u8) -> File {
        File { version, limit: 5, paths: vec![], names: vec![], rules: vec![], nets: vec![] }
    }

    pub fn flat() -> File {
        File::new(FLAT)
    }

    pub fn bytes(&self) -> Vec<u8> {
        let mut file = vec![0; 4];
        file.push(self.version);
        file.extend(self.limit.to_be_bytes());
        for table in [&self.paths, &self.names, &self.rules, &self.nets] {
            file.extend((table.len() as u16).to_be_bytes());
            table.iter().for_each(|item| file.extend(item));
        }
        set_length(&mut file);
        file
    }
}

/// The length field as it has to be.
pub fn set_length(file: &mut [u8]) {
    let length = file.len() as u32 - 4;
    file[..4].copy_from_slice(&length.to_be_bytes());
}

fn put(out: &mut Vec<u8>, numbers: &[u16]) {
    numbers.iter().for_each(|n| out.extend(n.to_be_bytes()));
}

pub fn path(text: &[u8]) -> Vec<u8> {
    [&[text.len() as u8], text].concat()
}

pub fn name(path: u16, payload: u64, children: &[u16]) -> Vec<u8> {
    let mut out = path.to_be_bytes().to_vec();
    out.extend(payload.to_be_bytes());
    out.push(children.len() as u8);
    put(&mut out, children);
    out
}

pub fn graft(path: u16, lazy: u8) -> Vec<u8> {
    let p = path.to_be_bytes();
    vec![1, p[0], p[1], lazy]
}

/// Annihilate 2, erase 3, commute 4, eta 5.
pub fn rule(tag: u8, lists: &[&[u16]]) -> Vec<u8> {
    let mut out = vec![tag];
    for list in lists {
        out.push(list.len() as u8);
        put(&mut out, list);
    }
    out
}

pub fn net_head(name: u16, wires: u32, free: usize) -> Vec<u8> {
    let mut out = name.to_be_bytes().to_vec();
    out.push(1);
    out.extend(wires.to_be_bytes());
    out.push(free as u8);
    out
}

pub fn node(name: &[u8], principal: u16, aux: &[u16]) -> Vec<u8> {
    let mut out = name.to_vec();
    out.extend(principal.to_be_bytes());
    out.push(aux.len() as u8);
    put(&mut out, aux);
    out
}

pub fn flat_net(name: u16, wires: u32, free: &[u16], pairs: &[(u16, u16)], nodes: &[Vec<u8>]) -> Vec<u8> {
    let mut out = net_head(name, wires, free.len());
    put(&mut out, free);
    out.extend((pairs.len() as u16).to_be_bytes());
    pairs.iter().for_each(|&(a, b)| put(&mut out, &[a, b]));
    out.extend((nodes.len() as u16).to_be_bytes());
    nodes.iter().for_each(|n| out.extend(n));
    out
}

/// A tree that is one wire.
pub fn wire(w: u16) -> Vec<u8> {
    let w = w.to_be_bytes();
    vec![0, w[0], w[1]]
}

/// A tree that is a node with its branches.
pub fn branching(name: &[u8], branches: &[Vec<u8>]) -> Vec<u8> {
    let mut out = vec![1];
    out.extend(name);
    out.push(branches.len() as u8);
    branches.iter().for_each(|b| out.extend(b));
    out
}

/// A link is two trees, so there are half as many links as trees in `linked`.
pub fn tree_net(name: u16, wires: u32, free: &[Vec<u8>], linked: &[Vec<u8>]) -> Vec<u8> {
    let mut out = net_head(name, wires, free.len());
    free.iter().for_each(|t| out.extend(t));
    out.extend(((linked.len() / 2) as u16).to_be_bytes());
    linked.iter().for_each(|t| out.extend(t));
    out
}
