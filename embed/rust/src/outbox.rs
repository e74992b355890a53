//! Outputs that are held back until outcomes are known.

use crate::{
    answer, calls, fill_from, Error, Fault, Handle, JournalWrite, Outcome, DONE, NOTHING,
    WRITE_ROOM,
};
use std::fmt;

const KNOWN: u32 = 40;
const COMMITTED: u32 = 1;

/// Outputs that are held back until outcomes are known, and let out at most once, for a host that writes their journal.
///
/// An output is a number of the caller's for an effect on the outside. It is ready once its condition is certain to be 1, whatever comes of transactions whose outcome wasn't learnt.
/// `docs/OUTBOXES.md` says what at most once leaves to the caller.
pub struct Outbox {
    handle: Handle,
}

// A handle is used by one call at a time, which `&mut` sees to, and may move from thread to thread.
unsafe impl Send for Outbox {}

/// How far an outbox is.
#[repr(C)]
#[derive(Clone, Copy, Debug, Default, PartialEq, Eq)]
pub struct JournalInfo {
    /// How many bytes of the journal are in the file.
    pub stored: u64,
    /// How many there are once all is written that the outbox has asked for.
    pub asked: u64,
    /// How many there may be.
    pub limit: u64,
}

impl Outbox {
    /// An outbox that goes on from what the host's file holds: [`EMPTY_JOURNAL`](crate::EMPTY_JOURNAL) in a new one's, which the host has made and synced.
    pub fn open(journal: &[u8]) -> Result<Outbox, Error> {
        Outbox::open_at(journal).map_err(|(error, _)| error)
    }

    /// The same; and where it is refused, it is said where the bytes are at fault.
    pub fn open_at(journal: &[u8]) -> Result<Outbox, (Error, Fault)> {
        let mut outbox = Outbox {
            handle: Handle::CLOSED,
        };
        let mut fault = Fault::default();
        answer(unsafe {
            calls::polydb_outbox_open(
                &mut outbox.handle,
                journal.as_ptr(),
                journal.len(),
                &mut fault,
            )
        })
        .map_err(|error| (error, fault))?;
        Ok(outbox)
    }

    /// Holds an output back under a condition: `1`, or cases as an item shows them, `0 if -0.1.0 ; 1 if +0.1.0`. It is held for good once its record is in the file. An output
    /// that was held before is [`Error::Again`], whether it was released since or not, and [`Error::Unwritten`] while records wait to be written.
    pub fn hold(&mut self, output: u32, cases: &[u8]) -> Result<(), Error> {
        answer(unsafe {
            calls::polydb_outbox_hold(&mut self.handle, output, cases.as_ptr(), cases.len())
        })
    }

    /// Learns whether a transaction commits, by the three numbers of its `txn` report. It is learnt for good once its record is in the file. Where an outcome was learnt before it is
    /// [`Error::Known`], with the one that counts, whichever is told now, and [`Error::Unwritten`] while records wait to be written.
    pub fn learn(
        &mut self,
        coordinator: u8,
        epoch: u32,
        number: u32,
        commits: bool,
    ) -> Result<(), Error> {
        let mut outcome = 0;
        let status = unsafe {
            calls::polydb_outbox_learn(
                &mut self.handle,
                coordinator,
                epoch,
                number,
                commits,
                &mut outcome,
            )
        };
        if status == KNOWN {
            return Err(Error::Known(match outcome {
                COMMITTED => Outcome::Committed,
                _ => Outcome::NotCommitted,
            }));
        }
        answer(status)
    }

    /// Releases the ready output that was held first, and gives whether there was one. Its record is to be written; once it is in the file, [`Outbox::take`] gives the output.
    pub fn release(&mut self) -> Result<bool, Error> {
        let status = unsafe { calls::polydb_outbox_release(&mut self.handle) };
        if status == NOTHING {
            return Ok(false);
        }
        answer(status).map(|()| true)
    }

    /// The next output that was released since the opening, once the record of its release is in the file, and [`Error::Unwritten`] until then; or `None` where all are taken. Its
    /// effect may be done now, and never before. One that isn't taken before the outbox is dropped, or its process killed, never is.
    pub fn take(&mut self) -> Result<Option<u32>, Error> {
        let mut output = 0;
        let status = unsafe { calls::polydb_outbox_take(&mut self.handle, &mut output) };
        if status == NOTHING {
            return Ok(None);
        }
        answer(status).map(|()| Some(output))
    }

    /// What is to be written next into the journal, as of a site. The same comes until [`Outbox::written`].
    pub fn next_write(&mut self) -> Result<Option<JournalWrite>, Error> {
        let mut place = 0;
        let (status, bytes) = fill_from(WRITE_ROOM, |out, written| unsafe {
            calls::polydb_outbox_take_journal(
                &mut self.handle,
                out.as_mut_ptr(),
                out.len(),
                written,
                &mut place,
            )
        });
        if status == NOTHING {
            return Ok(None);
        }
        answer(status)?;
        Ok(Some(JournalWrite { place, bytes }))
    }

    /// This has been written, and the file was synced.
    pub fn written(&mut self, write: &JournalWrite) -> Result<(), Error> {
        answer(unsafe {
            calls::polydb_outbox_journal_synced(&mut self.handle, write.place, write.bytes.len())
        })
    }

    /// How far the outbox is. What was held, learnt or released while `asked` was some number is in the file once `stored` is no less.
    pub fn info(&mut self) -> JournalInfo {
        let mut info = JournalInfo::default();
        let status = unsafe { calls::polydb_outbox_info(&mut self.handle, &mut info) };
        debug_assert_eq!(status, DONE, "an open outbox says how far it is");
        info
    }
}

impl Drop for Outbox {
    fn drop(&mut self) {
        unsafe { calls::polydb_outbox_close(&mut self.handle) }
    }
}

impl fmt::Debug for Outbox {
    fn fmt(&self, f: &mut fmt::Formatter<'_>) -> fmt::Result {
        f.debug_struct("Outbox").finish_non_exhaustive()
    }
}

#[cfg(test)]
mod tests {
    use super::*;
    use crate::{EMPTY_JOURNAL, MAX_CASES, MAX_JOURNAL};

    // An outbox and its file.
    struct Hosted {
        outbox: Outbox,
        file: Vec<u8>,
    }

    impl Hosted {
        fn open(file: &[u8]) -> Hosted {
            Hosted {
                outbox: Outbox::open(file).unwrap(),
                file: file.to_vec(),
            }
        }

        // Puts so many bytes of a write into the file.
        fn put(&mut self, write: &JournalWrite, count: usize) {
            let place = write.place as usize;
            self.file.resize(self.file.len().max(place + count), 0);
            self.file[place..place + count].copy_from_slice(&write.bytes[..count]);
        }

        // Writes all that there is.
        fn settle(&mut self) {
            while let Some(write) = self.outbox.next_write().unwrap() {
                self.put(&write, write.bytes.len());
                self.outbox.written(&write).unwrap();
            }
        }

        // What is taken once all is released and written.
        fn taken(&mut self) -> Vec<u32> {
            while self.outbox.release().unwrap() {}
            self.settle();
            std::iter::from_fn(|| self.outbox.take().unwrap()).collect()
        }
    }

    const IF_IT_COMMITS: &[u8] = b"0 if -0.1.0 ; 1 if +0.1.0";

    #[test]
    fn an_output_waits_for_its_transaction() {
        let mut host = Hosted::open(EMPTY_JOURNAL);
        host.outbox.hold(1, IF_IT_COMMITS).unwrap();
        host.outbox.hold(2, b"1").unwrap();
        assert_eq!(host.outbox.take(), Ok(None));
        assert_eq!(host.outbox.release(), Ok(true));
        assert_eq!(host.outbox.release(), Ok(false));
        assert_eq!(host.outbox.take(), Err(Error::Unwritten));
        host.settle();
        assert_eq!(host.outbox.take(), Ok(Some(2)));
        assert_eq!(host.outbox.take(), Ok(None));
        host.outbox.learn(0, 1, 0, true).unwrap();
        assert_eq!(host.taken(), [1]);

        // Another outbox on the same file knows it.
        let mut later = Hosted::open(&host.file);
        assert_eq!(later.taken(), []);
        assert_eq!(later.outbox.hold(1, b"1"), Err(Error::Again));
        let info = later.outbox.info();
        assert_eq!((info.stored, info.limit), (info.asked, MAX_JOURNAL));
        assert_eq!(info.stored, host.file.len() as u64);
    }

    #[test]
    fn the_first_of_several_counts() {
        let mut host = Hosted::open(EMPTY_JOURNAL);
        host.outbox.hold(7, IF_IT_COMMITS).unwrap();
        assert_eq!(host.outbox.hold(7, b"1"), Err(Error::Unwritten));
        host.outbox.learn(0, 1, 0, false).unwrap();
        assert_eq!(host.outbox.learn(0, 1, 0, true), Err(Error::Unwritten));
        host.settle();
        assert_eq!(host.outbox.hold(7, b"1"), Err(Error::Again));
        let known = Err(Error::Known(Outcome::NotCommitted));
        assert_eq!(host.outbox.learn(0, 1, 0, true), known);
        assert_eq!(host.taken(), []);
        host.outbox.learn(0, 1, 1, true).unwrap();
        host.settle();
        let known = Err(Error::Known(Outcome::Committed));
        assert_eq!(host.outbox.learn(0, 1, 1, false), known);
    }

    #[test]
    fn what_is_refused() {
        let mut host = Hosted::open(EMPTY_JOURNAL);
        let long = [b"1".as_slice(), &[b' '; MAX_CASES]].concat();
        let texts = [
            b"".as_slice(),
            b"2",
            b"-1",
            b"0 if +0.1.0",
            b"1 if -0.1.0 ; 1 if +0.1.0",
            b"0 if -16.1.0 ; 1 if +16.1.0",
            &long,
        ];
        for cases in texts {
            assert_eq!(host.outbox.hold(1, cases), Err(Error::BadCases));
        }
        assert_eq!(host.outbox.learn(16, 1, 0, true), Err(Error::NoSite));
        assert_eq!(host.outbox.next_write(), Ok(None));

        host.outbox.hold(1, b"1").unwrap();
        let write = host.outbox.next_write().unwrap().unwrap();
        let other = JournalWrite {
            place: write.place + 1,
            ..write.clone()
        };
        assert_eq!(host.outbox.written(&other), Err(Error::NotNext));
        assert_eq!(host.outbox.next_write(), Ok(Some(write)));

        let (error, fault) = Outbox::open_at(b"PVJRNL02\0").unwrap_err();
        assert_eq!((error, fault.number), (Error::NotOurs, 7));
        // A record of a site: that of an epoch.
        let foreign = b"PVJRNL01\x01\0\0\0\x05\x01\0\0\0\x01\0";
        let (error, fault) = Outbox::open_at(foreign).unwrap_err();
        assert_eq!((error, fault.number), (Error::BadRecord, 0));
    }

    #[test]
    fn a_crash_in_any_write_lets_nothing_out_twice() {
        let mut host = Hosted::open(EMPTY_JOURNAL);
        for output in 1..=3 {
            host.outbox.hold(output, b"1").unwrap();
        }
        host.settle();
        while host.outbox.release().unwrap() {}
        while let Some(write) = host.outbox.next_write().unwrap() {
            for count in 0..=write.bytes.len() {
                let mut left = Hosted {
                    outbox: Outbox::open(&host.file).unwrap(),
                    file: host.file.clone(),
                };
                left.put(&write, count);
                // Nothing was taken before, so all of them come now, or none does: their records are one group.
                let gone = write.bytes == [1] && count == 1;
                let taken = Hosted::open(&left.file).taken();
                assert_eq!(taken, if gone { vec![] } else { vec![1, 2, 3] });
            }
            assert_eq!(host.outbox.take(), Err(Error::Unwritten));
            host.put(&write, write.bytes.len());
            host.outbox.written(&write).unwrap();
        }
        assert_eq!(host.taken(), [1, 2, 3]);
    }
}
