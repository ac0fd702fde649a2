//! Editing while the difference is shown.

use crate::{calls, Refusal, SESSION_BYTES, SESSION_FILE_BYTES, SESSION_SIGNATURE_BYTES};

/// Two releases of version 1, a signature and the result of their comparison, as bytes of the layout in `docs/FORMAT.md`. A step adds an axiom to
/// a release or withdraws one, and compares again; a refused step changes nothing. A session may be copied, kept and filled by hand, since no call
/// supposes anything of it; of one that cannot be edited there is nothing to read: no names, no roles, no files.
///
/// ```
/// let first = b"ELT\x01\x00\x04\x00\x01\x00\x02\x02\x01\x02";
/// let second = b"ELT\x01\x00\x04\x00\x01\x00\x02\x02\x01\x03";
/// let mut work = vec![0; berrytick::work_length(4)?];
/// let mut session = berrytick::Session::start(first, second, &[1, 1, 1, 0], &mut work)?;
/// assert_eq!(session.byte(0), 3);
///
/// // The second release is given the first one's axiom: nothing differs.
/// session.withdraw(2, 0, &mut work)?;
/// session.add(2, &[0, 2, 2, 1, 2], &mut work)?;
/// assert_eq!(session.byte(0), 0);
/// assert_eq!(session.file(2), first);
/// # Ok::<(), berrytick::Refusal>(())
/// ```
#[derive(Clone, Copy, Debug, PartialEq, Eq)]
pub struct Session {
    pub bytes: [u8; SESSION_BYTES],
}

impl Session {
    /// Starts a session from two releases of version 1 and a signature.
    pub fn start(first: &[u8], second: &[u8], signature: &[u8], work: &mut [u8]) -> Result<Session, Refusal> {
        let mut session = Session { bytes: [0; SESSION_BYTES] };
        Refusal::of(unsafe {
            calls::berrytick_session_start(
                first.as_ptr(),
                first.len(),
                second.as_ptr(),
                second.len(),
                signature.as_ptr(),
                signature.len(),
                &mut session.bytes,
                work.as_mut_ptr(),
                work.len(),
            )
        })?;
        Ok(session)
    }

    /// Adds an axiom, its bytes as they stand in a file, to the release on a side, 1 or 2.
    pub fn add(&mut self, side: usize, axiom: &[u8], work: &mut [u8]) -> Result<(), Refusal> {
        Refusal::of(unsafe {
            calls::berrytick_session_add(
                &mut self.bytes,
                side,
                axiom.as_ptr(),
                axiom.len(),
                work.as_mut_ptr(),
                work.len(),
            )
        })
    }

    /// Withdraws a name's axiom from the release on a side.
    pub fn withdraw(&mut self, side: usize, name: usize, work: &mut [u8]) -> Result<(), Refusal> {
        Refusal::of(unsafe {
            calls::berrytick_session_withdraw(&mut self.bytes, side, name, work.as_mut_ptr(), work.len())
        })
    }

    fn counts(&self) -> [usize; 2] {
        let mut counts = [0; 2];
        unsafe { calls::berrytick_session_counts(&self.bytes, &mut counts) };
        counts.map(|count| count as usize)
    }

    /// The number of names.
    pub fn names(&self) -> usize {
        self.counts()[0]
    }

    /// The number of roles.
    pub fn roles(&self) -> usize {
        self.counts()[1]
    }

    /// The result byte of a name, as [`compare`](crate::compare) has it; 0 where there is no such name.
    pub fn byte(&self, name: usize) -> u8 {
        let mut byte = 0;
        unsafe { calls::berrytick_session_byte(&self.bytes, name, &mut byte) };
        byte as u8
    }

    /// The file held on a side, 1 or 2; empty for any other.
    pub fn file(&self, side: usize) -> Vec<u8> {
        let mut file = [0; SESSION_FILE_BYTES];
        let mut length = 0;
        unsafe { calls::berrytick_session_file(&self.bytes, side, &mut file, &mut length) };
        file[..length as usize].to_vec()
    }

    /// The signature's bytes.
    pub fn signature(&self) -> Vec<u8> {
        let mut signature = [0; SESSION_SIGNATURE_BYTES];
        let mut length = 0;
        unsafe { calls::berrytick_session_signature(&self.bytes, &mut signature, &mut length) };
        signature[..length as usize].to_vec()
    }
}
