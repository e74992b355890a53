//! A host in Rust: one site on a folder. Ten go from `a` to `b`, the site is closed and opened again on its folder, and ten more go.

use std::error::Error;
use std::path::Path;
use std::{env, fs, process};

use polydb::{FileHost, Output};

const CONFIG: &[u8] = b"sites 1\nitem a 0 100\nitem b 0 50\n";
const TRANSFER: &[u8] = b"a := a - 10 ; b := b + 10";

/// Prints the reports, and gives whether the request has its answer. There is no other site, so no message leaves this one.
fn settle(host: &mut FileHost) -> Result<bool, polydb::HostError> {
    let mut has_ended = false;
    host.settle(|output| {
        if let Output::Report(line) = output {
            has_ended |= line.starts_with(b"commit ")
                || line.starts_with(b"refuse ")
                || line.starts_with(b"spent ");
            print!("{}", String::from_utf8_lossy(&line));
        }
    })?;
    Ok(has_ended)
}

/// A life of the site: it is opened on its folder, a transfer is made, and it is closed.
fn live(folder: &Path) -> Result<(), Box<dyn Error>> {
    let mut host = FileHost::open(folder, CONFIG, 0, false)?;
    host.submit(TRANSFER, false)?;
    while !settle(&mut host)? {
        host.tick()?; // a real host ticks by the clock, and does something else meanwhile
    }
    for name in [b"a", b"b"] {
        print!("{}", String::from_utf8_lossy(&host.read(name)?));
    }
    Ok(())
}

fn main() -> Result<(), Box<dyn Error>> {
    let folder = env::temp_dir().join(format!("polydb-{}", process::id()));
    fs::create_dir(&folder)?;
    let lived = live(&folder).and_then(|()| {
        println!("the site is opened again on its folder");
        live(&folder)
    });
    fs::remove_dir_all(&folder)?;
    lived
}
