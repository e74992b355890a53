// A world in a loop: a hundred transfers, one after another, and what all items have together at the end.
use std::error::Error;
use std::io::{self, Write};

use polydb::World;

const CATALOG: &[u8] = b"sites 2\nitem a 0 100\nitem b 1 50\n";

fn main() -> Result<(), Box<dyn Error>> {
    let mut world = World::open(CATALOG)?;
    let mut lines = Vec::new();
    for amount in 1..=100 {
        let line = match amount % 2 {
            0 => format!("submit 0 a := a - {amount} ; b := b + {amount}"),
            _ => format!("submit 1 b := b - {amount} ; a := a + {amount}"),
        };
        world.step(line.as_bytes())?;
        world.step(b"pump")?;
        world.take_into(&mut lines)?;
    }
    let committed = lines
        .split(|byte| *byte == b'\n')
        .filter(|line| line.starts_with(b"commit "))
        .count();

    world.step(b"total")?;
    let mut out = io::stdout().lock();
    writeln!(out, "{committed} transfers have committed")?;
    world.take_into(&mut out)?;
    Ok(())
}
