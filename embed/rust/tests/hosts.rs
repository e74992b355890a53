//! A site through a transfer, a crash and a doubt; and what a folder refuses.
//!
//! The coordinator of the transfer that comes to be in doubt is in a process of its own: this test's program again, which a variable of the environment tells to be that site. Frames between
//! the two are a length of four bytes and a message.

use std::cell::Cell;
use std::env;
use std::ffi::c_int;
use std::fs;
use std::io::{self, Read, Write};
use std::path::{Path, PathBuf};
use std::process::{self, Child, Command, Stdio};

use polydb::{Error, FileHost, HostError, Outcome, Output};

const CONFIG: &[u8] = b"sites 2\nitem a 0 100\nitem b 1 50\n";
const TRANSFER: &[u8] = b"a := a - 10 ; b := b + 10";
const FOLDER: &str = "POLYDB_TEST_FOLDER";

thread_local! {
    /// Whether the next sync of this thread fails.
    static FAILS: Cell<bool> = const { Cell::new(false) };
}

extern "C" {
    fn fsync(file: c_int) -> c_int;
    fn __errno_location() -> *mut c_int;
}

/// The system's call, by which `sync_data` goes: this one is linked before it.
#[no_mangle]
pub extern "C" fn fdatasync(file: c_int) -> c_int {
    const EIO: c_int = 5;
    if FAILS.replace(false) {
        unsafe { *__errno_location() = EIO };
        return -1;
    }
    unsafe { fsync(file) }
}

/// A folder that goes at the end of a test.
struct Folder(PathBuf);

impl Folder {
    fn new(name: &str) -> Folder {
        let path = env::temp_dir().join(format!("polydb-{}-{name}", process::id()));
        fs::create_dir(&path).unwrap();
        Folder(path)
    }
}

impl Drop for Folder {
    fn drop(&mut self) {
        fs::remove_dir_all(&self.0).unwrap();
    }
}

fn open(folder: &Path, me: u8) -> FileHost {
    FileHost::open(folder, CONFIG, me, false).unwrap()
}

fn read(host: &mut FileHost, name: &str) -> String {
    host.settle(|_| ()).unwrap();
    String::from_utf8(host.read(name.as_bytes()).unwrap()).unwrap()
}

fn words(report: &[u8]) -> String {
    String::from_utf8(report.to_vec()).unwrap()
}

/// Carries all messages between two sites until there are none; gives the reports of both.
fn carry(hosts: &mut [FileHost; 2]) -> Vec<String> {
    let mut reports = Vec::new();
    loop {
        let mut messages = Vec::new();
        for host in hosts.iter_mut() {
            host.settle(|output| match output {
                Output::Message { to, bytes } => messages.push((to as usize, bytes)),
                Output::Report(line) => reports.push(words(&line)),
            })
            .unwrap();
        }
        if messages.is_empty() {
            return reports;
        }
        for (to, bytes) in messages {
            hosts[to].receive(&bytes).unwrap();
        }
    }
}

fn refusal(folder: &Path, config: &[u8], me: u8) -> HostError {
    FileHost::open(folder, config, me, false).unwrap_err()
}

#[test]
fn a_transfer_is_there_after_a_restart() {
    let folder = Folder::new("transfer");
    let mut hosts = [open(&folder.0, 0), open(&folder.0, 1)];
    assert!(hosts[0].found().is_new && hosts[0].found().length == 9);
    hosts[0].submit(TRANSFER, false).unwrap();
    let reports = carry(&mut hosts);
    assert_eq!(reports, ["txn 0.1.0\n", "commit 0.1.0 certain nothing\n"]);
    drop(hosts);
    let mut hosts = [open(&folder.0, 0), open(&folder.0, 1)];
    assert!(!hosts[0].found().is_new && !hosts[0].found().is_copied);
    assert_eq!(read(&mut hosts[0], "a"), "item a 90\n");
    assert_eq!(read(&mut hosts[1], "b"), "item b 60\n");
}

#[test]
fn a_lost_site_is_no_new_one() {
    let folder = Folder::new("lost");
    let lost = || FileHost::reopen(&folder.0, CONFIG, 0).unwrap_err();
    assert!(matches!(lost(), HostError::NotThere));
    fs::write(folder.0.join("site-0.pv"), "").unwrap();
    assert!(matches!(lost(), HostError::NotThere));
    fs::write(folder.0.join("site-0.pv"), "PVJRNL01\0").unwrap();
    assert!(matches!(lost(), HostError::NotThere));
    drop(open(&folder.0, 0));
    assert!(FileHost::reopen(&folder.0, CONFIG, 0).is_ok());
}

#[test]
fn a_folder_is_one_sites() {
    let folder = Folder::new("refusals");
    let mut host = open(&folder.0, 0);
    host.settle(|_| ()).unwrap();
    assert!(matches!(refusal(&folder.0, CONFIG, 0), HostError::Busy));
    drop(fs::File::open(folder.0.join("site-0.lock"))); // a lock of a process would be lost here
    assert!(matches!(refusal(&folder.0, CONFIG, 0), HostError::Busy));
    assert!(matches!(
        host.read(b"b").unwrap_err(),
        HostError::Engine(Error::NotHere)
    ));
    drop(host);
    assert!(matches!(
        refusal(&folder.0, b"sites 2\nitem a 0 100\nitem b 1 51\n", 0),
        HostError::OtherConfig { line: 3 }
    ));
    fs::copy(folder.0.join("site-0.id"), folder.0.join("site-1.id")).unwrap();
    assert!(matches!(
        refusal(&folder.0, CONFIG, 1),
        HostError::OtherSite(0)
    ));
    fs::write(folder.0.join("site-1.id"), "nonsense").unwrap();
    assert!(matches!(refusal(&folder.0, CONFIG, 1), HostError::Damaged));
    let journal = fs::read(folder.0.join("site-0.pv")).unwrap();
    fs::write(folder.0.join("site-0.pv"), "").unwrap();
    assert!(matches!(refusal(&folder.0, CONFIG, 0), HostError::Lost));
    fs::write(folder.0.join("site-0.pv"), "PVJRNL01\u{1}").unwrap();
    assert!(matches!(
        refusal(&folder.0, CONFIG, 0),
        HostError::Engine(Error::NotOurs)
    ));
    fs::write(folder.0.join("site-0.pv"), &journal).unwrap();
    fs::OpenOptions::new()
        .write(true)
        .open(folder.0.join("site-0.pv"))
        .unwrap()
        .set_len(400 << 20)
        .unwrap();
    assert_eq!(open(&folder.0, 0).found().length, journal.len() as u64);
    fs::remove_file(folder.0.join("site-0.id")).unwrap();
    assert!(matches!(refusal(&folder.0, CONFIG, 0), HostError::Unnamed));
    assert!(FileHost::open(&folder.0, CONFIG, 0, true).is_ok());
    assert!(matches!(
        refusal(Path::new("/nowhere"), CONFIG, 0),
        HostError::System { .. }
    ));
    assert!(matches!(
        refusal(&folder.0, b"nonsense\n", 2),
        HostError::Engine(Error::Malformed)
    ));
}

#[test]
fn a_configuration_grows() {
    let folder = Folder::new("grows");
    let grown = [CONFIG, b"item c 0 7\n"].concat();
    open(&folder.0, 0).settle(|_| ()).unwrap();
    let mut host = FileHost::open(&folder.0, &grown, 0, false).unwrap();
    host.settle(|_| ()).unwrap();
    drop(host);
    assert!(matches!(
        refusal(&folder.0, CONFIG, 0),
        HostError::OtherConfig { .. }
    ));
    assert!(FileHost::open(&folder.0, &grown, 0, false).is_ok());
}

#[test]
fn copies_are_refused() {
    let (folder, other) = (Folder::new("first"), Folder::new("copy"));
    open(&folder.0, 0).settle(|_| ()).unwrap();
    for entry in fs::read_dir(&folder.0).unwrap() {
        let name = entry.unwrap().file_name();
        fs::copy(folder.0.join(&name), other.0.join(&name)).unwrap();
    }
    assert!(matches!(refusal(&other.0, CONFIG, 0), HostError::Copied));
    assert!(FileHost::open(&other.0, CONFIG, 0, true).is_ok());
    let kept = fs::read(folder.0.join("site-0.pv")).unwrap();
    open(&folder.0, 0).settle(|_| ()).unwrap();
    open(&folder.0, 0).settle(|_| ()).unwrap();
    fs::write(folder.0.join("site-0.pv"), kept).unwrap();
    assert!(matches!(refusal(&folder.0, CONFIG, 0), HostError::Lost));
}

#[test]
fn numbers_have_tags_and_outcomes() {
    const ALONE: &[u8] = b"sites 1\nitem a 0 100\n";
    let folder = Folder::new("tags");
    let mut host = FileHost::open(&folder.0, ALONE, 0, false).unwrap();
    assert!(matches!(
        host.outcome(0, 1, 0),
        Err(HostError::Engine(Error::Unwritten))
    ));
    host.submit_tagged(b"a := a - 10", false, 7).unwrap();
    let mut reports = Vec::new();
    host.settle_tagged(|output, tag| match output {
        Output::Report(line) => reports.push((words(&line), tag)),
        Output::Message { .. } => panic!("there is no other site"),
    })
    .unwrap();
    assert_eq!(reports[0], ("txn 0.1.0\n".to_string(), 7));
    assert!(reports[1].0.starts_with("commit 0.1.0 ") && reports[1].1 == 0);
    assert_eq!(host.outcome(0, 1, 0).unwrap(), Some(Outcome::Committed));
    assert_eq!(host.outcome(0, 1, 1).unwrap(), None);
    assert!(matches!(
        host.outcome(1, 1, 0),
        Err(HostError::Engine(Error::NotHere))
    ));
    drop(host);
    let mut host = FileHost::reopen(&folder.0, ALONE, 0).unwrap();
    host.settle(|_| ()).unwrap();
    assert_eq!(host.outcome(0, 1, 0).unwrap(), Some(Outcome::Committed));
    assert_eq!(host.outcome(0, 1, 1).unwrap(), Some(Outcome::NotCommitted));
}

// ---- a crash, and a doubt ----

fn send(out: &mut impl Write, bytes: &[u8]) {
    out.write_all(&(bytes.len() as u32).to_be_bytes()).unwrap();
    out.write_all(bytes).unwrap();
    out.flush().unwrap();
}

/// The next frame, or nothing where there is no more.
fn receive(input: &mut impl Read) -> Option<Vec<u8>> {
    let mut length = [0; 4];
    input.read_exact(&mut length).ok()?;
    let mut bytes = vec![0; u32::from_be_bytes(length) as usize];
    input.read_exact(&mut bytes).ok()?;
    Some(bytes)
}

/// Site 0 in a process of its own. It comes to its end at once when it has decided: its journal has the commit, and nobody hears of it.
#[test]
fn coordinator() {
    let Some(folder) = env::var_os(FOLDER) else {
        return; // not that process
    };
    let mut host = open(Path::new(&folder), 0);
    host.submit(TRANSFER, false).unwrap();
    let (mut input, mut output) = (io::stdin(), io::stderr());
    loop {
        let mut messages = Vec::new();
        host.settle(|one| match one {
            Output::Message { bytes, .. } => messages.push(bytes),
            Output::Report(line) if line.starts_with(b"commit ") => process::abort(),
            Output::Report(_) => (),
        })
        .unwrap();
        for message in messages {
            send(&mut output, &message);
        }
        host.receive(&receive(&mut input).unwrap()).unwrap();
    }
}

fn start_coordinator(folder: &Path) -> Child {
    Command::new(env::current_exe().unwrap())
        .args(["--exact", "coordinator", "--nocapture", "--test-threads=1"])
        .env(FOLDER, folder)
        .stdin(Stdio::piped())
        .stdout(Stdio::null())
        .stderr(Stdio::piped())
        .spawn()
        .unwrap()
}

/// Carries messages between a site here and the coordinator, until that has come to its end.
fn talk(host: &mut FileHost, child: &mut Child) {
    let mut input = child.stderr.take().unwrap();
    let mut output = child.stdin.take().unwrap();
    while let Some(message) = receive(&mut input) {
        host.receive(&message).unwrap();
        let mut messages = Vec::new();
        host.settle(|one| {
            if let Output::Message { bytes, .. } = one {
                messages.push(bytes);
            }
        })
        .unwrap();
        for message in messages {
            send(&mut output, &message);
        }
    }
}

#[test]
fn a_crash_leaves_a_doubt_that_ends() {
    let folder = Folder::new("doubt");
    let mut participant = open(&folder.0, 1);
    let mut child = start_coordinator(&folder.0);
    talk(&mut participant, &mut child);
    assert!(!child.wait().unwrap().success());

    while read(&mut participant, "b").contains("locked") {
        participant.tick().unwrap();
    }
    assert_eq!(
        read(&mut participant, "b"),
        "item b 50 if -0.1.0 ; 60 if +0.1.0\n"
    );

    // A sync that fails at an opening may be told once only. Where that opening is refused then, the next one makes the copy.
    let (name, aside) = (folder.0.join("site-0.id"), folder.0.join("aside"));
    fs::rename(&name, &aside).unwrap();
    FAILS.set(true);
    assert!(matches!(refusal(&folder.0, CONFIG, 0), HostError::Unnamed));
    assert!(!FAILS.get());
    fs::rename(&aside, &name).unwrap();
    let coordinator = open(&folder.0, 0);
    assert!(coordinator.found().is_copied);
    drop(coordinator);
    FAILS.set(true);
    assert!(open(&folder.0, 0).found().is_copied);
    let coordinator = open(&folder.0, 0);
    assert!(!coordinator.found().is_copied); // the copy ended the doubt
    let mut hosts = [coordinator, participant];
    while read(&mut hosts[1], "b").contains(" if ") {
        hosts[1].tick().unwrap();
        carry(&mut hosts);
    }
    assert_eq!(read(&mut hosts[0], "a"), "item a 90\n");
    assert_eq!(read(&mut hosts[1], "b"), "item b 60\n");
}
