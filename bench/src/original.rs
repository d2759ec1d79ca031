//! The original in Rust: from the bytes of a file to those of the result, and its `optimize` alone.

use ivy::engine::{common, optimize, Rules};
use ivy::name::{NameId, Table};
use ivy::net::FlatNet;
use oracle::file::{self, File, Nets, Rule, NONE};
use std::collections::{HashMap, HashSet};

fn registered(file: &File) -> Rules<'static> {
    let mut rules = Rules::default();
    for rule in &file.rules {
        match rule {
            Rule::Graft(path, lazy) => rules.register(common::graft(*path, *lazy)),
            Rule::Annihilate(a) => rules.register(common::annihilate(a.clone())),
            Rule::Erase(a, b) => rules.register(common::erase(a.clone(), b.clone())),
            Rule::Commute(a, b) => rules.register(common::commute(a.clone(), b.clone())),
            Rule::Eta(a, b, c) => rules.register(common::eta_reduce(a.clone(), b.clone(), c.clone())),
        }
    }
    rules
}

fn included(file: &File) -> HashSet<NameId> {
    file.order.iter().filter(|net| net.1).map(|net| net.0).collect()
}

fn limit(file: &File) -> Option<usize> {
    (file.limit != NONE).then_some(file.limit as usize)
}

/// Read, optimise, write.
pub fn whole(bytes: &[u8]) -> Vec<u8> {
    let mut file = file::read(bytes);
    let rules = registered(&file);
    let included = included(&file);
    let mut left = limit(&file);
    let Nets::Flat(nets) = &mut file.nets else { panic!("not flat") };
    optimize(&mut file.table, &rules, nets, &mut left, |name| included.contains(&name));
    if let Some(left) = left {
        file.limit = left as u32;
    }
    file::write(&mut file)
}

/// A file that was read, with its rules; each call of `optimize` gets values of its own.
pub struct Prepared {
    file: File,
    rules: Rules<'static>,
    included: HashSet<NameId>,
}

pub type Values = (Table, HashMap<NameId, FlatNet>);

impl Prepared {
    pub fn new(bytes: &[u8]) -> Prepared {
        let file = file::read(bytes);
        let (rules, included) = (registered(&file), included(&file));
        Prepared { file, rules, included }
    }

    pub fn values(&self) -> Values {
        let Nets::Flat(nets) = &self.file.nets else { panic!("not flat") };
        (self.file.table.clone(), nets.clone())
    }

    pub fn limit(&self) -> Option<usize> {
        limit(&self.file)
    }

    /// `optimize` with this limit: loads the nets, runs, and makes nets of what is left.
    pub fn optimize(&self, values: &mut Values, limit: &mut Option<usize>) {
        optimize(&mut values.0, &self.rules, &mut values.1, limit, |name| self.included.contains(&name));
    }

    pub fn steps(&self) -> usize {
        let most = self.limit().unwrap_or(16_777_216);
        let mut left = Some(most);
        self.optimize(&mut self.values(), &mut left);
        most - left.unwrap()
    }
}
