//! The fast line program over standard input and output.

use std::io;

fn main() -> io::Result<()> {
    fast_lines::serve(io::stdin().lock(), io::stdout().lock())
}
