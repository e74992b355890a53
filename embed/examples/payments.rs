//! Payments that go out once: `payments.py` in Rust. An order is held back while a transfer is in doubt; its payer, a process of its own, is killed between the record of its release and the
//! payment, and a later one behind a payment. What happens stands there, step by step.

use std::error::Error;
use std::fs::{self, File, OpenOptions};
use std::io::{BufRead, BufReader, Write};
use std::os::unix::fs::FileExt;
use std::path::{Path, PathBuf};
use std::process::{self, Command, Stdio};
use std::{env, thread};

use polydb::{Error as Refused, Outbox, Outcome, World, EMPTY_JOURNAL};

type Result<T> = std::result::Result<T, Box<dyn Error>>;

const CATALOG: &[u8] = b"sites 2\nitem till 0 100\nitem account 1 50\n";
const NEVER: &str = "never";

/// The cases of a value: each with the transactions on which it depends, and a sign before each.
fn cases_of(text: &str) -> Result<Vec<(i64, Vec<&str>)>> {
    let case_of = |case| -> Result<_> {
        let (value, when) = str::split_once(case, " if ").unwrap_or((case, ""));
        Ok((value.parse()?, when.split_whitespace().collect()))
    };
    text.split(" ; ").map(case_of).collect()
}

// ---- the receiver ----

/// It can be asked which orders it has paid, and takes no number twice. Here it is a file; elsewhere it is another company.
struct Bank {
    file: PathBuf,
}

impl Bank {
    fn paid(&self) -> Result<Vec<u32>> {
        let mut numbers = Vec::new();
        if self.file.exists() {
            for line in fs::read_to_string(&self.file)?.lines() {
                numbers.push(line.parse()?);
            }
        }
        Ok(numbers)
    }

    fn pay(&self, order: &Order) -> Result<()> {
        if self.paid()?.contains(&order.number) {
            return Err(format!("order {} comes a second time", order.number).into());
        }
        let mut file = OpenOptions::new()
            .create(true)
            .append(true)
            .open(&self.file)?;
        Ok(writeln!(file, "{}", order.number)?)
    }
}

// ---- the payer: one process, one outbox ----

struct Order {
    number: u32,
    amount: i64,
    cases: String,
}

impl Order {
    /// Whether each case that may still be met has the value 1.
    fn is_due(&self, outcomes: &[String]) -> Result<bool> {
        let excluded = |literal: &&str| {
            let other = if literal.starts_with('+') { "-" } else { "+" };
            outcomes.contains(&format!("{other}{}", &literal[1..]))
        };
        let mut cases = cases_of(&self.cases)?.into_iter();
        Ok(cases.all(|(value, when)| value == 1 || when.iter().any(excluded)))
    }
}

/// An outbox in a file of its own, with what a host owes by `polydb.h`. (One payer runs at a time here, so there is no lock.)
struct OutboxFile {
    outbox: Outbox,
    file: File,
}

impl OutboxFile {
    /// What is read needn't be on the disk, if a process before was killed or its disk has failed. So it goes on in a copy, which is there, with its entry in the folder, before anything
    /// else is done.
    fn open(folder: &Path) -> Result<OutboxFile> {
        let name = folder.join("outbox.pv");
        let held = match name.exists() {
            true => fs::read(&name)?,
            false => EMPTY_JOURNAL.to_vec(),
        };
        let outbox = Outbox::open(&held)?;
        let beside = folder.join("outbox.new");
        let file = File::create(&beside)?;
        file.write_all_at(&held, 0)?;
        file.sync_data()?;
        fs::rename(beside, name)?;
        File::open(folder)?.sync_all()?;
        Ok(OutboxFile { outbox, file })
    }

    /// Writes and syncs what waits. Where that fails, this process ends, and the next one goes on in a copy.
    fn settle(&mut self) -> Result<()> {
        while let Some(write) = self.outbox.next_write()? {
            self.file.write_all_at(&write.bytes, write.place)?;
            self.file.sync_data()?;
            self.outbox.written(&write)?;
        }
        Ok(())
    }
}

/// What was held in an earlier life counts.
fn held(answer: std::result::Result<(), Refused>) -> Result<()> {
    match answer {
        Ok(()) | Err(Refused::Again | Refused::Unwritten) => Ok(()),
        Err(error) => Err(error.into()),
    }
}

/// What was learnt in an earlier life counts. Who has heard two outcomes doesn't go on: by the other one an order may be due that the outbox holds back for ever.
fn learnt(answer: std::result::Result<(), Refused>, commits: bool) -> Result<()> {
    match answer {
        Ok(()) => Ok(()),
        Err(Refused::Known(outcome)) if (outcome == Outcome::Committed) == commits => Ok(()),
        Err(error) => Err(error.into()),
    }
}

/// A payer's life. It comes to a stop where it is to be killed.
fn live(folder: &Path, doomed: &str, orders: &[Order], outcomes: &[String]) -> Result<()> {
    let bank = Bank {
        file: folder.join("bank"),
    };
    let pay = |order: &Order| -> Result<()> {
        bank.pay(order)?;
        println!("pays {}, order {}", order.amount, order.number);
        Ok(())
    };
    let come_to = |place| {
        if place == doomed {
            println!("{place}");
            loop {
                thread::park(); // until it is killed
            }
        }
    };

    let mut files = OutboxFile::open(folder)?;
    for order in orders {
        held(files.outbox.hold(order.number, order.cases.as_bytes()))?;
    }
    for outcome in outcomes {
        let (sign, name) = outcome.split_at(1);
        let numbers = name.split('.').map(str::parse);
        let [site, epoch, number] = numbers.collect::<std::result::Result<Vec<u32>, _>>()?[..]
        else {
            return Err(format!("no transaction: {name}").into());
        };
        let (site, commits) = (site.try_into()?, sign == "+");
        files.settle()?; // so that it is told which outcome counts, if one was learnt in an earlier life
        learnt(files.outbox.learn(site, epoch, number, commits), commits)?;
    }
    while files.outbox.release()? {}
    files.settle()?;
    come_to("released");

    while let Some(number) = files.outbox.take()? {
        if let Some(order) = orders.iter().find(|order| order.number == number) {
            pay(order)?;
        }
    }
    come_to("paid");

    // What the outbox has let out to a payer that was killed it doesn't let out again. Whether it was paid, the bank alone knows.
    for order in orders {
        if order.is_due(outcomes)? && !bank.paid()?.contains(&order.number) {
            println!("order {} was let out, and not paid", order.number);
            pay(order)?;
        }
    }
    Ok(())
}

// ---- the driver: makes the doubt, starts payers, and kills them ----

/// When the item that shows this has so much: 1 in each case that is enough, and else 0.
fn condition(shown: &str, amount: i64) -> Result<String> {
    let cases = cases_of(shown)?;
    let enough: Vec<_> = cases
        .iter()
        .map(|(value, _)| u8::from(*value >= amount))
        .collect();
    if enough.iter().all(|value| *value == enough[0]) {
        return Ok(enough[0].to_string());
    }
    let lines = enough.iter().zip(&cases);
    let texts: Vec<_> = lines
        .map(|(value, (_, when))| format!("{value} if {}", when.join(" ")))
        .collect();
    Ok(texts.join(" ; "))
}

fn steps(world: &mut World, lines: &[&str]) -> Result<()> {
    for line in lines {
        world.step(line.as_bytes())?;
    }
    Ok(())
}

/// What the world's report has behind these words.
fn reported(world: &mut World, words: &str) -> Result<String> {
    world.take_into(&mut Vec::new())?;
    world.step(b"report")?;
    let mut text = Vec::new();
    world.take_into(&mut text)?;
    let text = String::from_utf8(text)?;
    let mut lines = text.lines();
    let found = lines.find_map(|line| line.strip_prefix(words));
    Ok(found.ok_or("no such line")?.trim().to_owned())
}

/// A payer's process. One that is doomed is killed where it comes to a stop.
fn life(folder: &Path, orders: &[Order], outcomes: &[String], doomed: &str) -> Result<()> {
    let words = orders
        .iter()
        .map(|order| format!("{} {} {}", order.number, order.amount, order.cases));
    let mut child = Command::new(env::current_exe()?)
        .arg(folder)
        .arg(doomed)
        .args(words)
        .arg("--")
        .args(outcomes)
        .stdout(Stdio::piped())
        .spawn()?;
    for line in BufReader::new(child.stdout.take().ok_or("no output")?).lines() {
        let line = line?;
        if line == doomed {
            child.kill()?;
            println!("  the payer has {doomed}, and is killed");
        } else {
            println!("  the payer: {line}");
        }
    }
    if child.wait()?.success() != (doomed == NEVER) {
        return Err("a payer ended otherwise".into());
    }
    Ok(())
}

fn drive(folder: &Path) -> Result<()> {
    let mut world = World::open(CATALOG)?;
    let transfer = "submit 0 till := till - 20 ; account := account + 20";
    steps(&mut world, &[transfer, "pump 8", "lose 8"])?;
    steps(&mut world, &["tick 1", "tick 1", "tick 1"])?;
    let shown = reported(&mut world, "item account")?;
    println!("the account in doubt: {shown}");
    let mut orders = Vec::new();
    for (number, amount) in [(7, 55), (8, 10)] {
        let cases = condition(&shown, amount)?;
        println!("order {number} of {amount} is held back by: {cases}");
        orders.push(Order {
            number,
            amount,
            cases,
        });
    }
    life(folder, &orders, &[], NEVER)?;

    steps(&mut world, &["tick 1", "pump"])?;
    println!("the account: {}", reported(&mut world, "item account")?);
    let committed = reported(&mut world, "committed")?;
    let outcomes: Vec<_> = committed
        .split_whitespace()
        .map(|name| format!("+{name}"))
        .collect();
    life(folder, &orders, &outcomes, "released")?;
    life(folder, &orders, &outcomes, NEVER)?;

    let cases = condition(&reported(&mut world, "item account")?, 5)?;
    orders.push(Order {
        number: 9,
        amount: 5,
        cases,
    });
    println!("order 9 of 5 comes");
    life(folder, &orders, &outcomes, "paid")?;
    life(folder, &orders, &outcomes, NEVER)?;
    let bank = Bank {
        file: folder.join("bank"),
    };
    let paid: Vec<_> = bank.paid()?.iter().map(u32::to_string).collect();
    println!("the bank has paid the orders {}", paid.join(" "));
    Ok(())
}

fn order_of(word: &str) -> Result<Order> {
    let mut parts = word.splitn(3, ' ');
    let mut part = || parts.next().ok_or("no order");
    Ok(Order {
        number: part()?.parse()?,
        amount: part()?.parse()?,
        cases: part()?.to_owned(),
    })
}

fn main() -> Result<()> {
    let words: Vec<_> = env::args().skip(1).collect();
    if let [folder, doomed, rest @ ..] = &words[..] {
        let mut parts = rest.split(|word| word == "--");
        let orders: Result<Vec<_>> = parts
            .next()
            .unwrap_or_default()
            .iter()
            .map(|word| order_of(word))
            .collect();
        return live(
            Path::new(folder),
            doomed,
            &orders?,
            parts.next().unwrap_or_default(),
        );
    }
    let folder = env::temp_dir().join(format!("polydb-{}", process::id()));
    fs::create_dir(&folder)?;
    let driven = drive(&folder);
    fs::remove_dir_all(&folder)?;
    driven
}
