//! Standard input: a trace. Standard output: its listing, by the model.

use std::io::{stdin, stdout, Read, Result, Write};

fn main() -> Result<()> {
    let mut input = Vec::new();
    stdin().read_to_end(&mut input)?;
    stdout().write_all(ngachodui_model::listing(&input).as_bytes())
}
