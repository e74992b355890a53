//! polydb in a Rust program: a [`World`] of the database, or one [`Site`] of several, as a value that is closed when it is dropped;
//! an [`Outbox`], for effects that wait for outcomes; and [`run`], for a whole schedule. A [`FileHost`] is a site on a folder: it locks it, writes and syncs the site's journal there, and hands over what the site lets out.
//!
//! The functions that are called are those of `polydb.h`; what each does is written there. Nothing but `std` is needed.
#![warn(missing_docs)]

mod calls;
mod files;
mod host;
mod outbox;

pub use host::{FileHost, Found, HostError};
pub use outbox::{JournalInfo, Outbox};

use std::error;
use std::ffi::c_void;
use std::fmt;
use std::io::{self, Write};
use std::ptr;

/// A handle as C has it. Zeroes are a closed one.
#[repr(C)]
struct Handle {
    live: bool,
    at: *mut c_void,
}

impl Handle {
    const CLOSED: Handle = Handle {
        live: false,
        at: ptr::null_mut(),
    };
}

/// Why a call was refused. What it was called on is then as it was before, but where it is said otherwise.
#[derive(Clone, Copy, Debug, PartialEq, Eq)]
#[non_exhaustive]
pub enum Error {
    /// A line isn't in the grammar. [`run`] on the same lines says which one, and why.
    Malformed,
    /// There are more than 16,777,216 bytes.
    TooLong,
    /// There was no memory. The call can be made again.
    NoMemory,
    /// All messages together would have more than 268,435,456 bytes. The world takes no more steps.
    SentLimit,
    /// The lines have an event, and are to declare only.
    HasEvents,
    /// There is no site of this number.
    NoSite,
    /// The bytes are no journal.
    NotOurs,
    /// What the journal holds isn't a record.
    BadRecord,
    /// With the journal's records the value of an item would name too many outcomes.
    TooManyOutcomes,
    /// No epoch is left.
    EpochsSpent,
    /// The journal has no room for one more record: in a site's opening for that of the new epoch.
    Full,
    /// The text is no program.
    BadText,
    /// The program may not run.
    BadProgram,
    /// The bytes are no message.
    BadMessage,
    /// The message goes to another site, or the item is at another one.
    NotHere,
    /// There is no such site as the message comes from.
    NoSender,
    /// That isn't what is to be written next.
    NotNext,
    /// No item has this name.
    UnknownName,
    /// Records wait to be written into the file. What would be shown or told may rest on them, and a crash may undo it.
    Unwritten,
    /// The line is no event, or more than one, or declares something.
    NotOneEvent,
    /// There was no memory within the step. The world takes no more steps.
    BrokenOff,
    /// The world takes no more steps.
    Ended,
    /// The output was held before.
    Again,
    /// An outcome of the transaction was learnt before: this one, which counts.
    Known(Outcome),
    /// The text is no condition.
    BadCases,
    /// A status that this wrapper doesn't know.
    Other(u32),
}

impl fmt::Display for Error {
    fn fmt(&self, f: &mut fmt::Formatter<'_>) -> fmt::Result {
        f.write_str(match self {
            Error::Malformed => "a line isn't in the grammar",
            Error::TooLong => "too long",
            Error::NoMemory => "no memory",
            Error::SentLimit => "too many messages",
            Error::HasEvents => "there is an event",
            Error::NoSite => "no such site",
            Error::NotOurs => "no journal",
            Error::BadRecord => "the journal has what is no record",
            Error::TooManyOutcomes => "the journal gives an item too many outcomes",
            Error::EpochsSpent => "no epoch is left",
            Error::Full => "the journal is full",
            Error::BadText => "no program",
            Error::BadProgram => "the program may not run",
            Error::BadMessage => "no message",
            Error::NotHere => "at another site",
            Error::NoSender => "no such sender",
            Error::NotNext => "not what is to be written next",
            Error::UnknownName => "no such item",
            Error::Unwritten => "records wait to be written",
            Error::NotOneEvent => "not one event",
            Error::BrokenOff => "no memory within the step",
            Error::Ended => "the world takes no more steps",
            Error::Again => "held before",
            Error::Known(_) => "learnt before",
            Error::BadCases => "no condition",
            Error::Other(status) => return write!(f, "status {status}"),
        })
    }
}

impl error::Error for Error {}

const DONE: u32 = 0;
const TOO_SMALL: u32 = 18;
const NOT_GROWN: u32 = 38;
const NOTHING: u32 = 19;
const REPORT: u64 = 255;
const FIRST_ROOM: usize = 4096;
const WRITE_ROOM: usize = 1 << 16; // bytes of a write; more is taken where one doesn't fit

fn answer(status: u32) -> Result<(), Error> {
    Err(match status {
        DONE => return Ok(()),
        3 => Error::Malformed,
        6 => Error::TooLong,
        7 => Error::NoMemory,
        8 => Error::SentLimit,
        20 => Error::HasEvents,
        21 => Error::NoSite,
        22 => Error::NotOurs,
        23 => Error::BadRecord,
        24 => Error::TooManyOutcomes,
        25 => Error::EpochsSpent,
        26 => Error::Full,
        27 => Error::BadText,
        28 => Error::BadProgram,
        29 => Error::BadMessage,
        30 => Error::NotHere,
        31 => Error::NoSender,
        32 => Error::NotNext,
        33 => Error::UnknownName,
        34 => Error::NotOneEvent,
        35 => Error::BrokenOff,
        36 => Error::Ended,
        37 => Error::Unwritten,
        39 => Error::Again,
        41 => Error::BadCases,
        other => Error::Other(other),
    })
}

/// A world: all sites of a schedule, in memory.
pub struct World {
    handle: Handle,
    // What was taken and a writer has then refused: it comes first. At most one piece.
    left: Vec<u8>,
}

// How much `World::take_into` takes at once.
const PIECE: usize = 4096;

// A handle is used by one call at a time, which `&mut` sees to, and may move from thread to thread.
unsafe impl Send for World {}

impl World {
    /// A world with the sites and items of a catalog: the first lines of a schedule.
    pub fn open(catalog: &[u8]) -> Result<World, Error> {
        let mut world = World {
            handle: Handle::CLOSED,
            left: Vec::new(),
        };
        answer(unsafe {
            calls::polydb_world_open(&mut world.handle, catalog.as_ptr(), catalog.len())
        })?;
        Ok(world)
    }

    /// One event, as a line of a schedule without its end.
    pub fn step(&mut self, line: &[u8]) -> Result<(), Error> {
        answer(unsafe { calls::polydb_world_step(&mut self.handle, line.as_ptr(), line.len()) })
    }

    /// Writes the oldest bytes of what was printed, as far as there is room, and drops these alone. Gives how many they are.
    pub fn take(&mut self, out: &mut [u8]) -> usize {
        let first = out.len().min(self.left.len());
        out[..first].copy_from_slice(&self.left[..first]);
        self.left.drain(..first);

        let out = &mut out[first..];
        let mut written = 0;
        let status = unsafe {
            calls::polydb_world_take(&mut self.handle, out.as_mut_ptr(), out.len(), &mut written)
        };
        debug_assert_eq!(status, DONE, "an open world gives its lines");
        first + written
    }

    /// Writes all that was printed and not taken. Where the writer fails, what it hasn't taken stays, and comes first the next time.
    pub fn take_into(&mut self, out: &mut impl Write) -> io::Result<()> {
        let mut piece = [0; PIECE];
        loop {
            let count = self.take(&mut piece);
            if count == 0 {
                return Ok(());
            }
            let mut rest = &piece[..count];
            while !rest.is_empty() {
                match out.write(rest) {
                    Ok(0) => {
                        self.left = rest.to_vec();
                        return Err(io::ErrorKind::WriteZero.into());
                    }
                    Ok(count) => rest = &rest[count..],
                    Err(error) if error.kind() == io::ErrorKind::Interrupted => {}
                    Err(error) => {
                        self.left = rest.to_vec();
                        return Err(error);
                    }
                }
            }
        }
    }
}

impl Drop for World {
    fn drop(&mut self) {
        unsafe { calls::polydb_world_close(&mut self.handle) }
    }
}

impl fmt::Debug for World {
    fn fmt(&self, f: &mut fmt::Formatter<'_>) -> fmt::Result {
        f.debug_struct("World").finish_non_exhaustive()
    }
}

/// The greatest count of sites.
pub const MAX_SITES: usize = 16;
/// The greatest count of items of a configuration.
pub const MAX_ITEMS: usize = 1024;
/// The greatest length of an item's name, in bytes.
pub const MAX_NAME: usize = 16;
/// The greatest length of a program's text, in bytes.
pub const MAX_PROGRAM: usize = 1000;
/// The greatest count of items that a program may name.
pub const MAX_PROGRAM_ITEMS: usize = 16;
/// The greatest length of the condition of an output, in bytes.
pub const MAX_CASES: usize = 1000;
/// The greatest length of a configuration, of a schedule, and of a catalog and a line together, in bytes.
pub const MAX_INPUT: usize = 16_777_216;
/// The greatest length of a message, in bytes.
pub const MAX_MESSAGE: usize = 8_454_261;
/// The least limit of journals that may be declared, in bytes.
pub const MIN_JOURNAL: u64 = 32;
/// The greatest limit of journals, in bytes, and the limit where none is declared.
pub const MAX_JOURNAL: u64 = 4_294_967_296;

/// The version of the library: 10,000 times the first number, 100 times the second, and the third.
pub fn version() -> u32 {
    unsafe { calls::polydb_version() }
}

/// Whether a site that was opened with the configuration `before` may be opened with `later` from now on: the same sites, the same items and perhaps more behind
/// them, and no lower a limit of journals.
pub fn config_grows(before: &[u8], later: &[u8]) -> Result<bool, Error> {
    let status = unsafe {
        calls::polydb_config_grows(before.as_ptr(), before.len(), later.as_ptr(), later.len())
    };
    if status == NOT_GROWN {
        return Ok(false);
    }
    answer(status).map(|()| true)
}

/// What a status of the library says, if there is such a status.
pub fn status_text(status: u32) -> Option<String> {
    let (found, text) = fill(|out, written| unsafe {
        calls::polydb_status_text(status, out.as_mut_ptr(), out.len(), written)
    });
    (found == DONE).then(|| String::from_utf8_lossy(&text).into_owned())
}

/// Where what a call was given is at fault, as `polydb_fault` of the header says for each status; zeroes where it says nothing.
#[repr(C)]
#[derive(Clone, Copy, Debug, Default, PartialEq, Eq)]
pub struct Fault {
    /// A line, from 1.
    pub line: u32,
    /// A byte of a program's text, from 1.
    pub column: u32,
    /// A place, an index or a count.
    pub number: u64,
}

/// What became of a transaction.
#[derive(Clone, Copy, Debug, PartialEq, Eq)]
pub enum Outcome {
    /// It has committed.
    Committed,
    /// It hasn't committed, and never will.
    NotCommitted,
    /// The site works on it.
    AtWork,
}

/// How far a site is.
#[derive(Clone, Copy, Debug, PartialEq, Eq)]
pub struct Info {
    /// How many bytes of the journal are in the file.
    pub stored: u64,
    /// How many there are once all is written that the site has asked for.
    pub asked: u64,
    /// How many there may be.
    pub limit: u64,
    /// The epoch in which the site was opened, unless something is to be written: a crash may undo it.
    pub epoch: Option<u32>,
    /// How many records are in the file; or `u32::MAX` if there are more, for which a journal of [`MAX_JOURNAL`] has no room.
    pub records: u32,
}

// How far a site is, as C has it.
#[repr(C)]
#[derive(Default)]
struct Told {
    stored: u64,
    asked: u64,
    limit: u64,
    epoch: u32,
    records: u32,
}

/// The status and the text that `polydb run` gives for a schedule. At status 0 all of it was run.
pub fn run(schedule: &[u8]) -> (u32, Vec<u8>) {
    fill(|out, written| unsafe {
        calls::polydb_run(
            schedule.as_ptr(),
            schedule.len(),
            out.as_mut_ptr(),
            out.len(),
            written,
        )
    })
}

// What a call writes: it is called with a buffer, and again with a larger one where that is too small.
fn fill(call: impl FnMut(&mut [u8], &mut usize) -> u32) -> (u32, Vec<u8>) {
    fill_from(FIRST_ROOM, call)
}

fn fill_from(room: usize, mut call: impl FnMut(&mut [u8], &mut usize) -> u32) -> (u32, Vec<u8>) {
    let mut out = vec![0; room];
    loop {
        let mut written = 0;
        let status = call(&mut out, &mut written);
        if status != TOO_SMALL {
            out.truncate(written);
            return (status, out);
        }
        out.resize(written, 0);
    }
}

/// The file of a new site or outbox: a journal without records. The host makes it before it opens the site or outbox the first time.
pub const EMPTY_JOURNAL: &[u8; 9] = b"PVJRNL01\0";

/// What the host is to write next into the journal of a site or an outbox.
#[derive(Clone, Debug, PartialEq, Eq)]
pub struct JournalWrite {
    /// Where the bytes begin, from 0.
    pub place: u64,
    /// The bytes.
    pub bytes: Vec<u8>,
}

/// What a site lets out.
#[derive(Clone, Debug, PartialEq, Eq)]
pub enum Output {
    /// A message, to be carried to another site, or to this one.
    Message {
        /// The site that it goes to, which may be the one that sends it.
        to: u64,
        /// Its bytes.
        bytes: Vec<u8>,
    },
    /// A line for the host, with its line feed: what became of a request.
    Report(Vec<u8>),
}

/// One site, for a host that carries its messages and writes its journal.
pub struct Site {
    handle: Handle,
}

// A handle is used by one call at a time, which `&mut` sees to, and may move from thread to thread.
unsafe impl Send for Site {}

impl Site {
    /// Site `me` of a configuration, going on from what the host's file holds: [`EMPTY_JOURNAL`] in a new site's.
    pub fn open(config: &[u8], me: u8, journal: &[u8]) -> Result<Site, Error> {
        Site::open_at(config, me, journal).map_err(|(error, _)| error)
    }

    /// The same; and where it is refused, it is said where what was given is at fault.
    pub fn open_at(config: &[u8], me: u8, journal: &[u8]) -> Result<Site, (Error, Fault)> {
        let mut site = Site {
            handle: Handle::CLOSED,
        };
        let mut fault = Fault::default();
        answer(unsafe {
            calls::polydb_site_open_at(
                &mut site.handle,
                config.as_ptr(),
                config.len(),
                me,
                journal.as_ptr(),
                journal.len(),
                &mut fault,
            )
        })
        .map_err(|error| (error, fault))?;
        Ok(site)
    }

    /// A request, with this site as its coordinator.
    pub fn submit(&mut self, program: &[u8], query: bool) -> Result<(), Error> {
        self.submit_at(program, query).map_err(|(error, _)| error)
    }

    /// The same; and where it is refused, it is said where the text is at fault.
    pub fn submit_at(&mut self, program: &[u8], query: bool) -> Result<(), (Error, Fault)> {
        self.submit_tagged(program, query, 0)
    }

    /// The same, with a tag that [`Site::take_tagged`] gives with the report of the request's number, as long as the site isn't closed before. 0 is no tag.
    pub fn submit_tagged(
        &mut self,
        program: &[u8],
        query: bool,
        tag: u64,
    ) -> Result<(), (Error, Fault)> {
        let mut fault = Fault::default();
        answer(unsafe {
            calls::polydb_site_submit_tagged(
                &mut self.handle,
                program.as_ptr(),
                program.len(),
                query,
                tag,
                &mut fault,
            )
        })
        .map_err(|error| (error, fault))
    }

    /// A message that another site, or this one, has let out.
    pub fn receive(&mut self, message: &[u8]) -> Result<(), Error> {
        answer(unsafe {
            calls::polydb_site_receive(&mut self.handle, message.as_ptr(), message.len())
        })
    }

    /// Time has passed.
    pub fn tick(&mut self) -> Result<(), Error> {
        answer(unsafe { calls::polydb_site_tick(&mut self.handle) })
    }

    /// What is to be written next into the journal: all records that wait, as far as 64 KiB have room for them, and then the gate before them. The same comes until
    /// [`Site::written`].
    pub fn next_write(&mut self) -> Result<Option<JournalWrite>, Error> {
        let mut place = 0;
        let (status, bytes) = fill_from(WRITE_ROOM, |out, written| unsafe {
            calls::polydb_site_take_journal(
                &mut self.handle,
                out.as_mut_ptr(),
                out.len(),
                written,
                &mut place,
            )
        });
        if status == NOTHING {
            return Ok(None);
        }
        answer(status)?;
        Ok(Some(JournalWrite { place, bytes }))
    }

    /// This has been written, and the file was synced.
    pub fn written(&mut self, write: &JournalWrite) -> Result<(), Error> {
        answer(unsafe {
            calls::polydb_site_journal_synced(&mut self.handle, write.place, write.bytes.len())
        })
    }

    /// The next thing that is let out, if there is one now: nothing comes before the journal has what it rests on.
    pub fn take(&mut self) -> Result<Option<Output>, Error> {
        Ok(self.take_tagged()?.map(|(output, _)| output))
    }

    /// The same, with the tag of the request whose number is reported, and 0 with all else.
    pub fn take_tagged(&mut self) -> Result<Option<(Output, u64)>, Error> {
        let mut to = 0;
        let mut tag = 0;
        let (status, bytes) = fill(|out, written| unsafe {
            calls::polydb_site_take_tagged(
                &mut self.handle,
                out.as_mut_ptr(),
                out.len(),
                written,
                &mut to,
                &mut tag,
            )
        });
        if status == NOTHING {
            return Ok(None);
        }
        answer(status)?;
        let output = match to {
            REPORT => Output::Report(bytes),
            site => Output::Message { to: site, bytes },
        };
        Ok(Some((output, tag)))
    }

    /// What the site shows of its item of this name, as the line that a report has for it, once all is written.
    pub fn read(&mut self, name: &[u8]) -> Result<Vec<u8>, Error> {
        let (status, line) = fill(|out, written| unsafe {
            calls::polydb_site_read(
                &mut self.handle,
                name.as_ptr(),
                name.len(),
                out.as_mut_ptr(),
                out.len(),
                written,
            )
        });
        answer(status)?;
        Ok(line)
    }

    /// What became of a transaction of this site, once all is written, by the three numbers of its `txn` report; or `None` where the site may still
    /// give its number to one.
    pub fn outcome(
        &mut self,
        coordinator: u8,
        epoch: u32,
        number: u32,
    ) -> Result<Option<Outcome>, Error> {
        let mut outcome = 0;
        let status = unsafe {
            calls::polydb_site_outcome(&mut self.handle, coordinator, epoch, number, &mut outcome)
        };
        if status == NOTHING {
            return Ok(None);
        }
        answer(status)?;
        Ok(Some(match outcome {
            1 => Outcome::Committed,
            2 => Outcome::NotCommitted,
            _ => Outcome::AtWork,
        }))
    }

    /// How far the site is.
    pub fn info(&mut self) -> Result<Info, Error> {
        let mut told = Told::default();
        answer(unsafe { calls::polydb_site_info(&mut self.handle, &mut told) })?;
        Ok(Info {
            stored: told.stored,
            asked: told.asked,
            limit: told.limit,
            epoch: (told.epoch != 0).then_some(told.epoch),
            records: told.records,
        })
    }

    /// The name of the item of this number, from 0, in the order in which the configuration declares them, and the site that it is at; or `None`
    /// where there are no more.
    pub fn item(&mut self, number: u64) -> Result<Option<(Vec<u8>, u64)>, Error> {
        let mut at = 0;
        let (status, name) = fill(|out, written| unsafe {
            calls::polydb_site_item(
                &mut self.handle,
                number,
                out.as_mut_ptr(),
                out.len(),
                written,
                &mut at,
            )
        });
        if status == NOTHING {
            return Ok(None);
        }
        answer(status)?;
        Ok(Some((name, at)))
    }
}

impl Drop for Site {
    fn drop(&mut self) {
        unsafe { calls::polydb_site_close(&mut self.handle) }
    }
}

impl fmt::Debug for Site {
    fn fmt(&self, f: &mut fmt::Formatter<'_>) -> fmt::Result {
        f.debug_struct("Site").finish_non_exhaustive()
    }
}

#[cfg(test)]
mod tests {
    use super::*;

    const CATALOG: &[u8] = b"sites 2\nitem a 0 100\nitem b 1 50\n";

    // Takes so many bytes, in small pieces with interruptions, and then fails.
    struct Failing {
        taken: Vec<u8>,
        room: usize,
        interrupted: bool,
    }

    impl Write for Failing {
        fn write(&mut self, bytes: &[u8]) -> io::Result<usize> {
            self.interrupted = !self.interrupted;
            if self.interrupted {
                return Err(io::ErrorKind::Interrupted.into());
            }
            let count = bytes.len().min(self.room).min(7);
            if count == 0 {
                return Err(io::ErrorKind::BrokenPipe.into());
            }
            self.taken.extend_from_slice(&bytes[..count]);
            self.room -= count;
            Ok(count)
        }

        fn flush(&mut self) -> io::Result<()> {
            Ok(())
        }
    }

    fn reported() -> World {
        let mut world = World::open(CATALOG).unwrap();
        for _ in 0..300 {
            world.step(b"report").unwrap();
        }
        world
    }

    #[test]
    fn a_writer_that_fails_loses_nothing() {
        let mut all = Vec::new();
        reported().take_into(&mut all).unwrap();
        assert!(all.len() > 2 * PIECE);
        for room in [0, 1, 4095, 4096, 4097, 5000] {
            let mut world = reported();
            let mut out = Failing {
                taken: Vec::new(),
                room,
                interrupted: false,
            };
            let error = world.take_into(&mut out).unwrap_err();
            assert_eq!(error.kind(), io::ErrorKind::BrokenPipe);
            assert_eq!(out.taken, all[..room]);
            let mut few = [0; 3];
            assert_eq!(world.take(&mut few), 3);
            out.taken.extend_from_slice(&few);
            world.take_into(&mut out.taken).unwrap();
            assert_eq!(out.taken, all);
        }
    }

    #[test]
    fn the_version_is_told() {
        assert_eq!(version(), 300);
    }

    #[test]
    fn faults_have_places() {
        let refused = Site::open_at(b"sites 1\nitem A 0 1\n", 0, EMPTY_JOURNAL);
        let line = Fault {
            line: 2,
            ..Fault::default()
        };
        assert_eq!(refused.map(|_| ()), Err((Error::Malformed, line)));
        let mut site = Site::open(CATALOG, 0, EMPTY_JOURNAL).unwrap();
        let (error, fault) = site.submit_at(b"a := b + x", false).unwrap_err();
        assert_eq!((error, fault.column), (Error::BadText, 10));
    }

    #[test]
    fn a_site_is_asked() {
        let mut site = Site::open(CATALOG, 0, EMPTY_JOURNAL).unwrap();
        assert_eq!(site.item(1), Ok(Some((b"b".to_vec(), 1))));
        assert_eq!(site.item(2), Ok(None));
        assert_eq!(
            site.info().map(|info| (info.epoch, info.records)),
            Ok((None, 0))
        );
        site.submit_tagged(b"a := a - 10 ; b := b + 10", false, 7)
            .unwrap();
        assert_eq!(site.outcome(0, 1, 0), Err(Error::Unwritten));
        assert_eq!(site.outcome(1, 1, 0), Err(Error::NotHere));
        while let Some(write) = site.next_write().unwrap() {
            site.written(&write).unwrap();
        }
        assert_eq!(site.outcome(0, 1, 0), Ok(Some(Outcome::AtWork)));
        assert_eq!(site.outcome(0, 1, 1), Ok(None));
        assert_eq!(
            site.info().map(|info| (info.epoch, info.records)),
            Ok((Some(1), 1))
        );

        // The tag comes with the report of the number.
        let mut reports = Vec::new();
        while let Some((output, tag)) = site.take_tagged().unwrap() {
            match output {
                Output::Report(line) => reports.push((line, tag)),
                Output::Message { .. } => assert_eq!(tag, 0),
            }
        }
        assert_eq!(reports, [(b"txn 0.1.0\n".to_vec(), 7)]);
    }

    #[test]
    fn statuses_have_texts() {
        assert_eq!(status_text(27).as_deref(), Some("the text is no program"));
        assert_eq!(status_text(5), None);
    }
}
