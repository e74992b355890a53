//! A site's files in its folder: the lock, who the site is, and the journal. It is `embed/host/folder.c` in Rust, with the same files, and each excludes the other.
//!
//! The lock comes first, as all else is looked at and changed under it. What is changed comes last ([`SiteFolder::settle`]), when all has been read and the library has
//! taken it: so a refused opening leaves the files as they were.

use std::ffi::{c_int, c_short};
use std::fs::{self, File, OpenOptions};
use std::io;
use std::os::fd::AsRawFd;
use std::os::unix::fs::{FileExt, MetadataExt, OpenOptionsExt};
use std::path::{Path, PathBuf};
use std::process;

use crate::host::{Found, HostError};
use crate::{config_grows, Error, EMPTY_JOURNAL};

const HEADER: usize = 8;
const HEAD: usize = 5; // a gate, and the length of its record
const WINDOW: usize = 1 << 16;
const RUNS: &[u8; 5] = b"runs\n";
const ENDED: &[u8; 5] = b"done\n";
const MOST_IDENTITY: u64 = 64 + (16 << 20);

// Of Linux on x86-64, as `fcntl.h` has them.
const F_OFD_SETLK: c_int = 37;
const F_WRLCK: c_short = 1;
const F_UNLCK: c_short = 2;
const O_NOFOLLOW: c_int = 0o400000;

#[repr(C)]
struct Flock {
    kind: c_short,
    whence: c_short,
    start: i64,
    length: i64,
    process: c_int,
}

extern "C" {
    fn fcntl(file: c_int, command: c_int, ...) -> c_int;
}

/// A lock of the open file and not of the process: it excludes a second opening in this one, too.
fn set_lock(file: &File, kind: c_short) -> io::Result<()> {
    let lock = Flock {
        kind,
        whence: 0,
        start: 0,
        length: 0,
        process: 0,
    };
    match unsafe { fcntl(file.as_raw_fd(), F_OFD_SETLK, &lock as *const Flock) } {
        0 => Ok(()),
        _ => Err(io::Error::last_os_error()),
    }
}

fn whole_at(file: &File, mut length: usize, mut place: u64) -> io::Result<Vec<u8>> {
    let mut bytes = vec![0; length];
    let mut done = 0;
    while length > 0 {
        match file.read_at(&mut bytes[done..], place) {
            Ok(0) => break,
            Ok(count) => {
                done += count;
                length -= count;
                place += count as u64;
            }
            Err(error) if error.kind() == io::ErrorKind::Interrupted => {}
            Err(error) => return Err(error),
        }
    }
    bytes.truncate(done);
    Ok(bytes)
}

/// A site's files.
#[derive(Debug)]
pub(crate) struct SiteFolder {
    path: PathBuf,
    folder: File,
    lock: File,
    journal: Option<File>,
    me: u8,
    process: u32,
    is_named: bool,
    grows: bool,
    ended_well: bool,
    is_copy: bool, // the lock's file isn't the one that a process had here
    noted: u64, // so long the journal was on the disk when a process opened it, if that was noted
    has_journal: bool,
    runs: bool,
    has_failed: bool, // a write or a sync of this process has, and no copy of the journal was made since
}

/// What a journal's file holds, from its header to its closed gate.
pub(crate) struct Content {
    pub(crate) bytes: Vec<u8>,
    pub(crate) records: u64,
}

impl SiteFolder {
    fn name(&self, end: &str) -> PathBuf {
        self.path.join(format!("site-{}.{end}", self.me))
    }

    /// Opens the folder and takes the lock.
    pub(crate) fn open(path: &Path, me: u8) -> Result<SiteFolder, HostError> {
        let folder = File::open(path).map_err(|error| HostError::system("open", path, error))?;
        let lock_path = path.join(format!("site-{me}.lock"));
        let lock = OpenOptions::new()
            .read(true)
            .write(true)
            .create(true)
            .truncate(false)
            .mode(0o600)
            .custom_flags(O_NOFOLLOW)
            .open(&lock_path)
            .map_err(|error| HostError::system("open", &lock_path, error))?;
        set_lock(&lock, F_WRLCK).map_err(|error| match error.kind() {
            io::ErrorKind::WouldBlock | io::ErrorKind::PermissionDenied => HostError::Busy,
            _ => HostError::system("lock", &lock_path, error),
        })?;
        let opened = lock.metadata();
        let named = fs::symlink_metadata(&lock_path);
        let is_there = matches!((&opened, &named), (Ok(one), Ok(other)) if one.ino() == other.ino() && one.dev() == other.dev());
        if !is_there {
            return Err(HostError::Busy); // somebody has removed it, and the lock on it excludes nobody
        }
        let text = whole_at(&lock, 128, 0)
            .map_err(|error| HostError::system("read", &lock_path, error))?;
        let notes = read_notes(text.get(ENDED.len()..).unwrap_or_default());
        let is_copy =
            matches!((notes, &opened), (Some((file, _)), Ok(about)) if file != about.ino());
        Ok(SiteFolder {
            path: path.to_path_buf(),
            folder,
            lock,
            journal: None,
            me,
            process: process::id(),
            is_named: false,
            grows: false,
            ended_well: text.starts_with(ENDED),
            is_copy,
            noted: notes.map_or(0, |(_, length)| length),
            has_journal: false,
            runs: false,
            has_failed: false,
        })
    }

    /// Says in the lock's file that this process has the site, so that the next one knows where this one ends without a word.
    fn say_it_runs(&mut self) -> Result<(), HostError> {
        self.lock
            .metadata()
            .map(|about| spell_notes(about.ino(), self.noted))
            .and_then(|notes| {
                self.lock
                    .write_all_at(&[RUNS.as_slice(), notes.as_bytes()].concat(), 0)
            })
            .and_then(|()| self.lock.sync_data())
            .map_err(|error| HostError::system("write", &self.name("lock"), error))?;
        self.runs = true;
        Ok(())
    }

    fn identity(&self, config: &[u8]) -> Vec<u8> {
        let head = format!("polydb site 1\nsite {}\nconfig {}\n", self.me, config.len());
        [head.as_bytes(), config].concat()
    }

    /// Looks whether the folder is this site's with this configuration, if it says so at all.
    pub(crate) fn compare(&mut self, config: &[u8]) -> Result<(), HostError> {
        let path = self.name("id");
        let file = match File::open(&path) {
            Ok(file) => file,
            Err(error) if error.kind() == io::ErrorKind::NotFound => return Ok(()),
            Err(error) => return Err(HostError::system("open", &path, error)),
        };
        let length = file
            .metadata()
            .map_err(|error| HostError::system("read", &path, error))?
            .len();
        if length > MOST_IDENTITY {
            return Err(HostError::Damaged);
        }
        let kept = whole_at(&file, length as usize, 0)
            .map_err(|error| HostError::system("read", &path, error))?;
        let (site, kept_config) = read_identity(&kept).ok_or(HostError::Damaged)?;
        if site != self.me {
            return Err(HostError::OtherSite(site));
        }
        self.grows = kept_config != config;
        if self.grows && !has_grown(kept_config, config)? {
            let mut lines = kept_config
                .split(|&byte| byte == b'\n')
                .zip(config.split(|&byte| byte == b'\n'));
            let line = lines
                .position(|(one, other)| one != other)
                .map_or(0, |index| index + 1);
            return Err(HostError::OtherConfig { line });
        }
        self.is_named = true;
        Ok(())
    }

    /// Syncs the journal and reads it: of a new site, which is refused where the site was said to be there, the journal without records.
    pub(crate) fn read(&mut self, adopts: bool, is_there: bool) -> Result<Content, HostError> {
        if self.is_copy && !adopts {
            return Err(HostError::Copied);
        }
        let path = self.name("pv");
        match OpenOptions::new().read(true).write(true).open(&path) {
            Ok(file) => self.journal = Some(file),
            Err(error) if error.kind() == io::ErrorKind::NotFound => {}
            Err(error) => return Err(HostError::system("open", &path, error)),
        }
        let failed = |error| HostError::system("read", &path, error);
        let size = match &self.journal {
            Some(file) => file.metadata().map_err(failed)?.len(),
            None => 0,
        };
        self.has_journal = size > 0;
        let Some(file) = self.journal.as_ref().filter(|_| size > 0) else {
            return match (self.is_named, is_there) {
                (true, _) => Err(HostError::Lost),
                (false, true) => Err(HostError::NotThere),
                (false, false) => Ok(Content {
                    bytes: EMPTY_JOURNAL.to_vec(),
                    records: 0,
                }),
            };
        };
        let is_synced = file
            .sync_data()
            .and_then(|()| self.folder.sync_all())
            .is_ok();
        let read = end_of(file, size)
            .and_then(|(length, records)| Ok((whole_at(file, length, 0)?, records)));
        if !is_synced {
            self.ended_well = false;
            self.has_failed = true;
            self.say_it_runs()?; // the next sync may say nothing, so the doubt is kept for the next opening, if this one comes to nothing
        }
        let (bytes, records) = read.map_err(failed)?;
        if !self.is_named && records > 0 && !adopts {
            return Err(HostError::Unnamed);
        }
        if !self.is_named && records == 0 && is_there {
            return Err(HostError::NotThere);
        }
        Ok(Content { bytes, records })
    }

    /// Makes a file of these bytes: it is written beside, synced, and takes its place in one go. It is on the disk with its entry then.
    fn put(&self, end: &str, beside: &str, bytes: &[u8]) -> Result<File, HostError> {
        let path = self.name(beside);
        let failed = |what| {
            let path = path.clone();
            move |error| HostError::system(what, &path, error)
        };
        let file = OpenOptions::new()
            .read(true)
            .write(true)
            .create(true)
            .truncate(true)
            .mode(0o600)
            .custom_flags(O_NOFOLLOW)
            .open(&path)
            .map_err(failed("open"))?;
        file.write_all_at(bytes, 0).map_err(failed("write"))?;
        file.sync_data().map_err(failed("sync"))?;
        fs::rename(&path, self.name(end)).map_err(failed("rename"))?;
        self.folder
            .sync_all()
            .map_err(failed("sync the folder of"))?;
        Ok(file)
    }

    fn change(&mut self, content: &Content, config: &[u8]) -> Result<(), HostError> {
        self.say_it_runs()?;
        if !self.has_journal || !self.ended_well {
            self.journal = Some(self.put("pv", "new", &content.bytes)?); // of the old one nothing counts any more
            self.has_failed = false; // what had failed was a sync of the old one
        }
        if !self.is_named || self.grows {
            self.put("id", "id.new", &self.identity(config))?;
        }
        Ok(())
    }

    /// Makes that what was read is in the journal's file and on the disk, that the folder says whose it is, and with which configuration from now on, and that the next
    /// opening knows of this one.
    pub(crate) fn settle(&mut self, content: &Content, config: &[u8]) -> Result<Found, HostError> {
        let length = content.bytes.len() as u64;
        if length < self.noted {
            return Err(HostError::Lost);
        }
        if self.has_journal && self.ended_well {
            self.noted = length; // else what can be read needn't be on the disk, and a crash may leave less
        }
        let found = Found {
            is_new: !self.is_named && content.records == 0,
            is_copied: self.has_journal && !self.ended_well,
            records: content.records,
            length,
        };
        let changed = self.change(content, config);
        self.has_failed |= changed.is_err();
        changed.map(|()| found)
    }

    /// Writes bytes into the journal, and syncs it.
    pub(crate) fn write(&mut self, place: u64, bytes: &[u8]) -> Result<(), HostError> {
        let Some(file) = &self.journal else {
            return Err(HostError::Lost);
        };
        let written = file
            .write_all_at(bytes, place)
            .and_then(|()| file.sync_data());
        self.has_failed |= written.is_err();
        written.map_err(|error| HostError::system("write", &self.name("pv"), error))
    }

    /// Whether this process is the one that opened it, and no child of a fork.
    pub(crate) fn is_owner(&self) -> bool {
        self.process == process::id()
    }
}

impl Drop for SiteFolder {
    /// Says that the process ended well, if so, and lets go of the lock: a child of a fork may have its file open, too.
    fn drop(&mut self) {
        if self.is_owner() {
            if self.runs && !self.has_failed {
                let _ = self.lock.write_all_at(ENDED, 0); // else a copy is made for nothing
            }
            let _ = set_lock(&self.lock, F_UNLCK);
        }
    }
}

/// Whether the one configuration has grown to the other. A text that is none has not.
fn has_grown(before: &[u8], later: &[u8]) -> Result<bool, HostError> {
    match config_grows(before, later) {
        Err(Error::NoMemory) => Err(HostError::Engine(Error::NoMemory)),
        grows => Ok(grows.unwrap_or(false)),
    }
}

/// What stands in the lock's file behind what it says of the process: which file it is, since a copy is another one, and how long the journal was on the disk then, since
/// one that was set back may be shorter.
fn spell_notes(file: u64, length: u64) -> String {
    format!("file {file:020}\njournal {length:020}\n")
}

fn read_notes(text: &[u8]) -> Option<(u64, u64)> {
    let (file, rest) = text.strip_prefix(b"file ")?.split_at_checked(20)?;
    let (length, rest) = rest.strip_prefix(b"\njournal ")?.split_at_checked(20)?;
    let number = |digits| std::str::from_utf8(digits).ok()?.parse().ok();
    rest.starts_with(b"\n")
        .then_some((number(file)?, number(length)?))
}

fn read_identity(bytes: &[u8]) -> Option<(u8, &[u8])> {
    let rest = bytes.strip_prefix(b"polydb site 1\nsite ")?;
    let (site, rest) = line_of(rest)?;
    let (length, config) = line_of(rest.strip_prefix(b"config ")?)?;
    (config.len() as u64 == length).then_some((u8::try_from(site).ok()?, config))
}

/// The number that a line is, and what comes after it.
fn line_of(bytes: &[u8]) -> Option<(u64, &[u8])> {
    let end = bytes.iter().position(|&byte| byte == b'\n')?;
    let number = std::str::from_utf8(&bytes[..end]).ok()?.parse().ok()?;
    Some((number, &bytes[end + 1..]))
}

/// Where the journal in a file ends, and how many records it has, a window of the file at a time. Of a file that is no journal it is as much as shows that: up to an open gate
/// whose record goes past the end.
fn end_of(file: &File, size: u64) -> io::Result<(usize, u64)> {
    let header = whole_at(file, HEADER, 0)?;
    if header != EMPTY_JOURNAL[..HEADER] {
        return Ok((header.len(), 0));
    }
    let (mut place, mut records) = (HEADER as u64, 0);
    let (mut start, mut window) = (0, Vec::new());
    loop {
        if place + HEAD as u64 > start + window.len() as u64 {
            start = place;
            window = whole_at(file, WINDOW, place)?;
        }
        let head = &window[(place - start) as usize..];
        let end = place as usize + head.len().min(1);
        if head.len() < HEAD || head[0] != 1 {
            return Ok((end, records));
        }
        let length = u64::from(u32::from_be_bytes([head[1], head[2], head[3], head[4]]));
        if place + HEAD as u64 + length >= size {
            return Ok((end, records));
        }
        place += HEAD as u64 + length;
        records += 1;
    }
}
