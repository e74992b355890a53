//! A site in a process of its own, in Rust on `std` alone: its messages are datagrams on 127.0.0.1, and it takes commands as lines on its standard input, as the hosts of `three_processes.py` do.
//!
//!     process SITE FOLDER PORTS          the configuration is FOLDER/config; the ports of all sites, in their order, with commas between them
//!
//! One thread waits for datagrams and one for lines; the site is in a third, which takes all that has come and writes it together.

use std::error::Error;
use std::io::{self, BufRead, Write};
use std::net::{SocketAddr, UdpSocket};
use std::path::PathBuf;
use std::sync::mpsc::{channel, Receiver, Sender};
use std::{env, fs, thread};

use polydb::{FileHost, Output};

const MOST_DATAGRAM: usize = 65_507;

/// What comes to a site.
enum Input {
    Message(Vec<u8>),
    Line(String),
    End,
}

fn say(line: &str) {
    let mut out = io::stdout().lock();
    let _ = writeln!(out, "{line}").and_then(|()| out.flush()); // whoever listened may be gone
}

/// Passes on what comes from the other sites. Anyone may send a datagram, and the site takes a message as a site's.
fn hear_sites(socket: UdpSocket, addresses: Vec<SocketAddr>, inputs: Sender<Input>) {
    let mut bytes = vec![0; MOST_DATAGRAM];
    loop {
        if let Ok((count, sender)) = socket.recv_from(&mut bytes) {
            if addresses.contains(&sender)
                && inputs
                    .send(Input::Message(bytes[..count].to_vec()))
                    .is_err()
            {
                return;
            }
        }
    }
}

fn hear_lines(inputs: Sender<Input>) {
    for line in io::stdin().lock().lines().map_while(Result::ok) {
        if inputs.send(Input::Line(line)).is_err() {
            return;
        }
    }
    let _ = inputs.send(Input::End);
}

struct Process {
    site: FileHost,
    socket: UdpSocket,
    addresses: Vec<SocketAddr>,
}

impl Process {
    /// Writes and lets out. What fails is said, and made again the next time.
    fn settle(&mut self) {
        let (socket, addresses) = (&self.socket, &self.addresses);
        let settled = self.site.settle(|output| match output {
            Output::Report(line) => say(&format!(
                "report {}",
                String::from_utf8_lossy(&line).trim_end()
            )),
            Output::Message { to, bytes } => {
                if let Some(address) = addresses.get(to as usize) {
                    let _ = socket.send_to(&bytes, address); // a message may be lost
                }
            }
        });
        if let Err(error) = settled {
            eprintln!("{error}");
        }
    }

    fn obey(&mut self, line: &str) {
        let (word, rest) = line.split_once(' ').unwrap_or((line, ""));
        let done = match word {
            "submit" => self.site.submit(rest.as_bytes(), false),
            "tick" => self.site.tick(),
            "read" => {
                self.settle();
                self.site.read(rest.as_bytes()).map(|line| {
                    let line = String::from_utf8_lossy(&line);
                    say(&format!(
                        "value {}",
                        line.trim_end().trim_start_matches(&format!("item {rest} "))
                    ));
                })
            }
            _ => return say(&format!("error no command: {line}")),
        };
        if let Err(error) = done {
            say(&format!("error {error}"));
        }
    }

    fn run(&mut self, inputs: &Receiver<Input>) {
        self.settle();
        say("ready");
        while let Ok(first) = inputs.recv() {
            for input in std::iter::once(first).chain(inputs.try_iter()) {
                match input {
                    Input::Message(bytes) => drop(self.site.receive(&bytes)), // what can't be taken is lost
                    Input::Line(line) => self.obey(&line),
                    Input::End => return,
                }
            }
            self.settle();
        }
    }
}

fn main() -> Result<(), Box<dyn Error>> {
    let words: Vec<String> = env::args().collect();
    let [_, me, folder, ports] = words.as_slice() else {
        return Err("process SITE FOLDER PORTS".into());
    };
    let (me, folder): (u8, PathBuf) = (me.parse()?, folder.into());
    let ports: Vec<u16> = ports.split(',').map(str::parse).collect::<Result<_, _>>()?;
    let addresses: Vec<SocketAddr> = ports
        .iter()
        .map(|&port| ([127, 0, 0, 1], port).into())
        .collect();
    let site = FileHost::open(&folder, &fs::read(folder.join("config"))?, me, false)?;
    let socket = UdpSocket::bind(*addresses.get(usize::from(me)).ok_or("no such site")?)?;
    let (sender, inputs) = channel();
    let (listener, of_sites, others) = (socket.try_clone()?, sender.clone(), addresses.clone());
    thread::spawn(move || hear_sites(listener, others, of_sites));
    thread::spawn(move || hear_lines(sender));
    Process {
        site,
        socket,
        addresses,
    }
    .run(&inputs);
    Ok(())
}
