//! The original's conversions and its pruning, each from the bytes of a file to those of the result.

use crate::convert_files::Call;
use ivy::name::NameId;
use ivy::net::{FlatNet, TreeNet};
use ivy::prune::prune;
use oracle::file::{self, File, Nets};

const FLAT: u8 = 1;
const TREE: u8 = 65;

fn converted(file: &mut File, version: u8, nets: Nets) {
    file.version = version;
    file.nets = nets;
}

/// Read, convert, write.
pub fn whole(call: Call, bytes: &[u8], entries: &[u32]) -> Vec<u8> {
    let mut file = file::read(bytes);
    match (call, &mut file.nets) {
        (Call::FlatFromTree, Nets::Tree(nets)) => {
            let nets = Nets::Flat(FlatNet::from_tree_nets(nets));
            converted(&mut file, FLAT, nets);
        }
        (Call::TreeFromFlat, Nets::Flat(nets)) => {
            let nets = Nets::Tree(TreeNet::from_flat_nets(nets));
            converted(&mut file, TREE, nets);
        }
        (Call::ResolveFlat, Nets::Flat(nets)) => nets.values_mut().for_each(|net| net.resolve_links()),
        (Call::ResolveTree, Nets::Tree(nets)) => nets.values_mut().for_each(|net| net.resolve_links()),
        (Call::Prune, Nets::Flat(nets)) => prune(&file.table, nets, entries.iter().map(|&e| NameId(e as usize))),
        _ => panic!("nets of the other kind"),
    }
    file::write(&mut file)
}
