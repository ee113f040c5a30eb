//! The printing program: a table on standard input, its plan on standard output.

use std::io::{self, Read, Write};

fn main() -> io::Result<()> {
    let mut input = Vec::new();
    // One byte more than accepted shows that the input is too long.
    let most = reference::LONGEST_INPUT as u64 + 1;
    io::stdin().lock().take(most).read_to_end(&mut input)?;
    io::stdout().write_all(reference::print_plan(&input).as_bytes())
}
