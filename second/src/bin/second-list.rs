//! Lists the records of the pool on standard input, and its faults.

use std::io::{self, Read, Write};

fn main() -> io::Result<()> {
    let mut pool = Vec::new();
    // One byte over the limit is enough to refuse the pool, so endless input
    // is not read any further.
    let bound = second::MAX_POOL_BYTES as u64 + 1;
    io::stdin().lock().take(bound).read_to_end(&mut pool)?;
    io::stdout()
        .lock()
        .write_all(second::list(&pool).as_bytes())
}
