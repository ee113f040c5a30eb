//! The variance program: stored plans on standard input, a line for each on standard
//! output.

use std::io;

fn main() -> io::Result<()> {
    reference::write_variances(&mut io::stdin().lock(), &mut io::stdout().lock())
}
