//! The model as a program: the tests of the pipes drive it, and a reader can set it beside the built program.

use conformance::model::text;
use std::io::{self, Read, Write};

fn main() -> io::Result<()> {
    let mut input = Vec::new();
    io::stdin().read_to_end(&mut input)?;
    io::stdout().write_all(text::output(&input).as_bytes())
}
