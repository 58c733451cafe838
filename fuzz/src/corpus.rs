//! Inputs in a text file, a line each in hexadecimal digits, or in a folder of
//! files as a fuzzer keeps them.

use std::fs;
use std::io;
use std::path::Path;

/// The inputs that are kept in the repository.
pub const KEPT: &str = concat!(env!("CARGO_MANIFEST_DIR"), "/corpus.txt");

/// The inputs of a text file, a folder, or a file that is one input.
pub fn load(path: &Path) -> io::Result<Vec<Vec<u8>>> {
    if path.is_dir() {
        let mut paths = fs::read_dir(path)?
            .map(|entry| Ok(entry?.path()))
            .collect::<io::Result<Vec<_>>>()?;
        paths.sort();
        paths.iter().map(fs::read).collect()
    } else if path.extension().is_some_and(|it| it == "txt") {
        parse(&fs::read_to_string(path)?)
    } else {
        Ok(vec![fs::read(path)?])
    }
}

fn parse(text: &str) -> io::Result<Vec<Vec<u8>>> {
    let lines = text.lines().filter(|line| !line.starts_with('#'));
    lines.map(parse_line).collect()
}

fn parse_line(line: &str) -> io::Result<Vec<u8>> {
    let digits = line.as_bytes().chunks(2);
    digits
        .map(|pair| {
            let pair = std::str::from_utf8(pair).map_err(io::Error::other)?;
            u8::from_str_radix(pair, 16).map_err(io::Error::other)
        })
        .collect()
}

/// The line of an input.
pub fn line(input: &[u8]) -> String {
    input.iter().map(|byte| format!("{byte:02X}")).collect()
}

#[cfg(test)]
mod tests {
    use super::*;

    #[test]
    fn a_line_is_an_input() {
        let inputs = [vec![0, 0xAB, 0xFF], vec![7], Vec::new()];
        let text: String = inputs.iter().map(|it| line(it) + "\n").collect();
        assert_eq!(parse(&format!("# kept\n{text}")).unwrap(), inputs);
        assert!(parse("0G").is_err());
    }
}
