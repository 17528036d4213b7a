//! The kept incidents, beside the bindings.

use std::fs;
use std::path::PathBuf;

fn folder() -> PathBuf {
    PathBuf::from(env!("CARGO_MANIFEST_DIR")).join("../../incidents")
}

/// Every schedule, in the order of the names.
pub fn all() -> Vec<Vec<u8>> {
    let files = fs::read_dir(folder()).expect("the incidents are there");
    let mut paths: Vec<_> = files.flatten().map(|file| file.path()).collect();
    paths.retain(|path| path.extension().is_some_and(|end| end == "schedule"));
    paths.sort();
    let read = |path: PathBuf| fs::read(path).expect("an incident can be read");
    paths.into_iter().map(read).collect()
}

pub fn one(name: &str) -> Vec<u8> {
    fs::read(folder().join(name)).expect("the incident is there")
}
