//! Every file of a folder through a comparison, until the first difference.

use crate::{compare, compare_fine};
use reference::generator::Random;
use std::collections::BTreeMap;
use std::io;
use std::path::{Path, PathBuf};

/// How a file is compared: the return, or what differs.
pub type Comparison = fn(&[u8], &mut Random) -> Result<u32, String>;

/// The two desks' entries.
pub const DESKS: [(&str, Comparison); 2] = [("main", compare), ("superfine", compare_fine)];

/// How many files had each return, for each desk.
pub type Returns = Vec<(&'static str, BTreeMap<u32, u64>)>;

/// The files of a folder in the order of their names, whatever they hold, without those of folders in it.
pub fn files(folder: &Path) -> io::Result<Vec<PathBuf>> {
    let mut found = Vec::new();
    for entry in std::fs::read_dir(folder)? {
        let path = entry?.path();
        if !path.is_dir() {
            found.push(path);
        }
    }
    found.sort();
    Ok(found)
}

/// Compares each file at each desk; an error names the first file that differs or can't be read. What
/// the memory held before comes from the file's place, so that a difference shows again.
pub fn compare_files(
    files: &[PathBuf],
    desks: &[(&'static str, Comparison)],
    mut progress: impl FnMut(usize),
) -> Result<Returns, String> {
    let mut returns: Returns = desks
        .iter()
        .map(|&(desk, _)| (desk, BTreeMap::new()))
        .collect();
    for (place, path) in files.iter().enumerate() {
        let name = path.display();
        let file = std::fs::read(path).map_err(|error| format!("{name}: {error}"))?;
        for (&(desk, comparison), (_, counts)) in desks.iter().zip(&mut returns) {
            let random = &mut Random::new(place as u64);
            let code =
                comparison(&file, random).map_err(|what| format!("{name}, {desk} desk: {what}"))?;
            *counts.entry(code).or_default() += 1;
        }
        progress(place + 1);
    }
    Ok(returns)
}
