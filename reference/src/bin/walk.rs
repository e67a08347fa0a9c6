//! The program `walk`: standard input to standard output (document 01).

use reference::calls::Fast;
use std::io::{Read, Write};

fn main() -> std::io::Result<()> {
    let mut input = Vec::new();
    std::io::stdin().read_to_end(&mut input)?;
    let text = reference::walk::walk(&mut Fast::default(), &input);
    std::io::stdout().write_all(text.as_bytes())
}
