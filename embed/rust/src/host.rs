//! A site on a folder: what every host of a site needs of files. What it does of that which a host owes by `polydb.h`:
//!
//! - A lock excludes every other process, and every other opening in this one, whether by this crate, by C or by Python.
//! - After a fork the child is refused, and the parent goes on.
//! - The folder says which site it is and with which configuration, on the disk before anything else is written, and is compared at each opening.
//! - A new journal is on the disk with its entry in the folder before the site is given anything. A file without a byte counts as new.
//! - Where the process before didn't end by a drop, or one of its writes or syncs has failed, the journal is written anew under another name, synced, and takes the old one's place.
//! - Files that were copied, or set back to what they were before the last opening, are refused where it shows: the lock's file is another one, or the journal is shorter.
//! - A write or a sync that fails is never told to the site. The same bytes are written again at the next [`FileHost::settle`].
//! - A message of the site to itself is given back to it at once.

use std::error;
use std::fmt;
use std::io;
use std::path::{Path, PathBuf};

use crate::files::SiteFolder;
use crate::{Error, Outcome, Output, Site};

/// Why a host refused a call.
#[derive(Debug)]
#[non_exhaustive]
pub enum HostError {
    /// The system refused something.
    System {
        /// What was done.
        what: &'static str,
        /// With which file.
        path: PathBuf,
        /// The system's answer.
        source: io::Error,
    },
    /// Another process has the site open, or this one has already.
    Busy,
    /// The folder's files are those of the site with this number.
    OtherSite(u8),
    /// The site was opened before with a configuration that hasn't grown to this one.
    OtherConfig {
        /// The first line that is another one, from 1.
        line: usize,
    },
    /// The journal has records, and nothing says of which site and configuration.
    Unnamed,
    /// The site was opened before, and its journal is gone or empty, or shorter than it was.
    Lost,
    /// Nothing of the site is in the folder, and it was said to be there.
    NotThere,
    /// The file that says which site it is can't be read.
    Damaged,
    /// The folder's files were copied, or moved from another file system. `adopts` takes them.
    Copied,
    /// This process is a child of the one that opened the site.
    Forked,
    /// The library refused it.
    Engine(Error),
}

impl HostError {
    pub(crate) fn system(what: &'static str, path: &Path, source: io::Error) -> HostError {
        HostError::System {
            what,
            path: path.to_path_buf(),
            source,
        }
    }
}

impl fmt::Display for HostError {
    fn fmt(&self, f: &mut fmt::Formatter<'_>) -> fmt::Result {
        match self {
            HostError::System { what, path, source } => {
                write!(f, "{what} {}: {source}", path.display())
            }
            HostError::Busy => {
                f.write_str("another process, or another part of this one, has the site open")
            }
            HostError::OtherSite(site) => write!(f, "the files are those of site {site}"),
            HostError::OtherConfig { line } => write!(
                f,
                "the site was opened before with another configuration (line {line})"
            ),
            HostError::Unnamed => f.write_str(
                "the journal has records, and nothing says of which site and configuration",
            ),
            HostError::Lost => f.write_str(
                "the site was opened before, and its journal is gone, or shorter than it was",
            ),
            HostError::NotThere => f.write_str("nothing of the site is in the folder"),
            HostError::Damaged => f.write_str("the file that says which site it is can't be read"),
            HostError::Copied => {
                f.write_str("the folder's files were copied, or moved from another file system")
            }
            HostError::Forked => f.write_str("the parent of this process has the site"),
            HostError::Engine(error) => error.fmt(f),
        }
    }
}

impl error::Error for HostError {
    fn source(&self) -> Option<&(dyn error::Error + 'static)> {
        match self {
            HostError::System { source, .. } => Some(source),
            HostError::Engine(error) => Some(error),
            _ => None,
        }
    }
}

impl From<Error> for HostError {
    fn from(error: Error) -> HostError {
        HostError::Engine(error)
    }
}

/// What an opening has found.
#[derive(Clone, Copy, Debug, PartialEq, Eq)]
pub struct Found {
    /// Nobody has opened this site here before.
    pub is_new: bool,
    /// The process before didn't end well: the journal was written anew.
    pub is_copied: bool,
    /// How many records the journal had.
    pub records: u64,
    /// How long the journal was, from its header to its closed gate.
    pub length: u64,
}

/// A site that is open on its folder. It is closed, and its lock let go of, when it is dropped.
#[derive(Debug)]
pub struct FileHost {
    site: Site,
    files: SiteFolder,
    me: u8,
    found: Found,
}

impl FileHost {
    /// Opens site `me` on its folder. With `adopts`, a journal with records is taken beside which nothing says whose it is, and
    /// files that were copied.
    pub fn open(folder: &Path, config: &[u8], me: u8, adopts: bool) -> Result<FileHost, HostError> {
        FileHost::opened(folder, config, me, adopts, false)
    }

    /// Opens site `me`, which was opened on its folder before: a folder without it is refused, and not taken for a new site's. A site whose files were lost isn't to
    /// begin anew.
    pub fn reopen(folder: &Path, config: &[u8], me: u8) -> Result<FileHost, HostError> {
        FileHost::opened(folder, config, me, false, true)
    }

    fn opened(
        folder: &Path,
        config: &[u8],
        me: u8,
        adopts: bool,
        is_there: bool,
    ) -> Result<FileHost, HostError> {
        let mut files = SiteFolder::open(folder, me)?;
        files.compare(config)?;
        let content = files.read(adopts, is_there)?;
        let site = Site::open(config, me, &content.bytes)?;
        let found = files.settle(&content, config)?;
        Ok(FileHost {
            site,
            files,
            me,
            found,
        })
    }

    /// What the opening has found.
    pub fn found(&self) -> Found {
        self.found
    }

    fn site(&mut self) -> Result<&mut Site, HostError> {
        match self.files.is_owner() {
            true => Ok(&mut self.site),
            false => Err(HostError::Forked),
        }
    }

    /// A request, with this site as its coordinator.
    pub fn submit(&mut self, program: &[u8], query: bool) -> Result<(), HostError> {
        self.submit_tagged(program, query, 0)
    }

    /// The same, with a tag that [`FileHost::settle_tagged`] gives with the report of the request's number. 0 is no tag.
    pub fn submit_tagged(
        &mut self,
        program: &[u8],
        query: bool,
        tag: u64,
    ) -> Result<(), HostError> {
        Ok(self
            .site()?
            .submit_tagged(program, query, tag)
            .map_err(|(error, _)| error)?)
    }

    /// A message of another site comes.
    pub fn receive(&mut self, message: &[u8]) -> Result<(), HostError> {
        Ok(self.site()?.receive(message)?)
    }

    /// Time has passed.
    pub fn tick(&mut self) -> Result<(), HostError> {
        Ok(self.site()?.tick()?)
    }

    /// What the site shows of its item, as the line that a report has for it; [`FileHost::settle`] comes first.
    pub fn read(&mut self, name: &[u8]) -> Result<Vec<u8>, HostError> {
        Ok(self.site()?.read(name)?)
    }

    /// What became of a transaction of this site, by the three numbers of its `txn` report, or `None` where the site may still give its number to one;
    /// [`FileHost::settle`] comes first.
    pub fn outcome(
        &mut self,
        coordinator: u8,
        epoch: u32,
        number: u32,
    ) -> Result<Option<Outcome>, HostError> {
        Ok(self.site()?.outcome(coordinator, epoch, number)?)
    }

    /// Writes and syncs what the site wants written, hands over its messages for other sites and its reports, and goes on until there is nothing of either. Where a write
    /// fails, what doesn't rest on it is handed over all the same; the rest waits, and the next call tries again.
    pub fn settle(&mut self, mut hand_over: impl FnMut(Output)) -> Result<(), HostError> {
        self.settle_tagged(|output, _| hand_over(output))
    }

    /// The same, with the tag of the request whose number is reported, and 0 with all else. Nothing more is taken from the site before `hand_over` returns: so a number that
    /// it keeps on a disk is there before its transaction can commit. A program that can't keep it ends the process there: once it returns, the transaction may commit.
    pub fn settle_tagged(
        &mut self,
        mut hand_over: impl FnMut(Output, u64),
    ) -> Result<(), HostError> {
        self.site()?;
        loop {
            let written = self.write_all();
            let any = self.let_out(&mut hand_over)?;
            written?;
            if !any {
                return Ok(());
            }
        }
    }

    /// One write and its sync after another: of all records that wait and have room, and then of the gate before them.
    fn write_all(&mut self) -> Result<(), HostError> {
        while let Some(write) = self.site.next_write()? {
            self.files.write(write.place, &write.bytes)?;
            self.site.written(&write)?;
        }
        Ok(())
    }

    fn let_out(&mut self, hand_over: &mut impl FnMut(Output, u64)) -> Result<bool, HostError> {
        let mut any = false;
        while let Some((output, tag)) = self.site.take_tagged()? {
            any = true;
            match output {
                Output::Message { to, bytes } if to == u64::from(self.me) => {
                    let _ = self.site.receive(&bytes); // where it can't be taken it is lost, which a message may be: the next ticks ask again
                }
                other => hand_over(other, tag),
            }
        }
        Ok(any)
    }
}
