//! The chapters of samples/real.

use crate::galleys::Tried;
use crate::measure::Given;
use std::path::Path;

/// A chapter of fewer lines is made with other weights, too: of the smallest it shows most what a making costs that is no search.
const SMALL: usize = 300;

/// The weights of a specification, and where they stand in it.
const WEIGHTS: [(&str, [u32; 2]); 2] = [("α = 0", [0, 1]), ("α = β = 0", [0, 0])];
const WEIGHTS_AT: usize = 22;

/// The chapters, by name, each small one with its weights and with others.
pub fn chapters() -> Vec<Given> {
    let folder = Path::new(concat!(env!("CARGO_MANIFEST_DIR"), "/../samples/real"));
    let files = folder.read_dir().expect("samples/real").map(|entry| entry.expect("a file of samples/real").path());
    let mut files: Vec<_> = files.filter(|file| file.extension().is_some_and(|kind| kind == "galley")).collect();
    files.sort();
    files.iter().flat_map(|file| weighted(read(file))).collect()
}

fn read(file: &Path) -> Given {
    let name = file.file_stem().expect("a name").to_string_lossy().into_owned();
    Given { name, bytes: std::fs::read(file).expect("a file that can be read"), tried: Tried::Queues }
}

fn weighted(given: Given) -> Vec<Given> {
    let others: &[_] = if native::sizes(&given.bytes)[0] < SMALL { &WEIGHTS } else { &[] };
    let other = |(told, weights): &(&str, [u32; 2])| {
        let mut bytes = given.bytes.clone();
        bytes[WEIGHTS_AT..WEIGHTS_AT + 8].copy_from_slice(weights.map(u32::to_be_bytes).as_flattened());
        Given { name: format!("{}, {told}", given.name), bytes, tried: given.tried }
    };
    let others: Vec<Given> = others.iter().map(other).collect();
    std::iter::once(given).chain(others).collect()
}
