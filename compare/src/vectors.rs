//! The test vectors of the repository.

use std::fs;
use std::io;
use std::path::{Path, PathBuf};

const DIRECTORY: &str = concat!(env!("CARGO_MANIFEST_DIR"), "/../vectors");

/// A pool with the output that the lister must give for it.
pub struct Vector {
    pub name: String,
    pub pool: Vec<u8>,
    pub output: String,
}

/// All pool vectors, by name.
pub fn load() -> io::Result<Vec<Vector>> {
    let mut paths = fs::read_dir(DIRECTORY)?
        .map(|entry| Ok(entry?.path()))
        .collect::<io::Result<Vec<PathBuf>>>()?;
    paths.retain(|path| is_pool(path));
    paths.sort();
    paths.iter().map(|path| load_one(path)).collect()
}

/// The bytes of a vector that is not a pool.
pub fn load_bytes(name: &str) -> io::Result<Vec<u8>> {
    parse_hex(&fs::read_to_string(Path::new(DIRECTORY).join(name))?)
}

fn is_pool(path: &Path) -> bool {
    let name = path.file_name().unwrap_or_default().to_string_lossy();
    name.starts_with("pool-") && name.ends_with(".hex")
}

fn load_one(path: &Path) -> io::Result<Vector> {
    Ok(Vector {
        name: path
            .file_stem()
            .unwrap_or_default()
            .to_string_lossy()
            .into(),
        pool: parse_hex(&fs::read_to_string(path)?)?,
        output: fs::read_to_string(path.with_extension("lister.txt"))?,
    })
}

fn parse_hex(text: &str) -> io::Result<Vec<u8>> {
    text.lines()
        .filter(|line| !line.starts_with('#'))
        .flat_map(str::split_whitespace)
        .map(|byte| u8::from_str_radix(byte, 16).map_err(io::Error::other))
        .collect()
}
