//! The lister's whole output for each pool of the test vectors.

use second::list;
use std::fs;
use std::path::{Path, PathBuf};

const DIRECTORY: &str = concat!(env!("CARGO_MANIFEST_DIR"), "/../vectors");

#[test]
fn every_vector_is_listed_whole() {
    let pools = pool_files();
    assert!(!pools.is_empty(), "no vectors found");
    for path in pools {
        let pool = parse_hex(&fs::read_to_string(&path).unwrap());
        let expected = fs::read_to_string(path.with_extension("lister.txt")).unwrap();
        assert_eq!(list(&pool), expected, "{}", path.display());
    }
}

fn pool_files() -> Vec<PathBuf> {
    let is_pool = |path: &Path| {
        let name = path.file_name().unwrap().to_string_lossy();
        name.starts_with("pool-") && name.ends_with(".hex")
    };
    fs::read_dir(DIRECTORY)
        .unwrap()
        .map(|entry| entry.unwrap().path())
        .filter(|path| is_pool(path))
        .collect()
}

pub fn parse_hex(text: &str) -> Vec<u8> {
    text.lines()
        .filter(|line| !line.starts_with('#'))
        .flat_map(str::split_whitespace)
        .map(|byte| u8::from_str_radix(byte, 16).unwrap())
        .collect()
}
