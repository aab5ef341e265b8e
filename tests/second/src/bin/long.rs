//! Writes a long file to standard output.
//!
//! `long MODE BLOCKS ENDING`: good in this break mode but for its ending (Good,
//! BadCode, BadHeader, OpenSet, ByteMore, BlockMore).
//! `long users BLOCKS`: user blocks only, at any length.
//!
//! TNB has the last five digits of BLOCKS.

use second::make::{long_file, user_blocks, Ending};
use std::io::{self, BufWriter, Write};
use std::{env, error};

type Result = std::result::Result<(), Box<dyn error::Error>>;

fn main() -> Result {
    let arguments: Vec<String> = env::args().skip(1).collect();
    let arguments: Vec<&str> = arguments.iter().map(String::as_str).collect();
    let mut to = BufWriter::new(io::stdout().lock());
    match arguments[..] {
        ["users", blocks] => write_users(&mut to, blocks.parse()?)?,
        [mode, blocks, ending] => {
            let mode: u64 = mode.parse()?;
            to.write_all(&long_file(mode, mode, blocks.parse()?, named(ending)?))?;
        }
        _ => return Err("usage: long MODE BLOCKS ENDING | users BLOCKS".into()),
    }
    Ok(to.flush()?)
}

fn write_users(to: &mut impl Write, blocks: usize) -> io::Result<()> {
    user_blocks(blocks, blocks).try_for_each(|piece| to.write_all(&piece))
}

fn named(name: &str) -> std::result::Result<Ending, String> {
    let found = Ending::ALL.into_iter().find(|ending| format!("{ending:?}") == name);
    found.ok_or_else(|| format!("no such ending: {name}"))
}
