//! The line program over standard input and output.

use std::io::{self, BufWriter};

fn main() -> io::Result<()> {
    reference::lines::serve(io::stdin().lock(), BufWriter::new(io::stdout().lock()))
}
