//! Calls that are lent no room, so that the library judges their sizes before any is made.

use crate::refusal::Refusal;

/// What a call writes, which has the given length where it is served, and what it answers.
///
/// At first the call is lent no room. The library then refuses columns, rows and input (5 and 6) before it
/// refuses the output's length (rule 11.2), so that room is made only where these pass. A call that writes
/// nothing is served at once.
pub(crate) fn filled<T>(
    length: usize,
    call: impl Fn(&mut [u8]) -> Result<T, Refusal>,
) -> Result<(Vec<u8>, T), Refusal> {
    match call(&mut []) {
        Err(Refusal::OutputLength) => {
            let mut out = vec![0; length];
            let answer = call(&mut out)?;
            Ok((out, answer))
        }
        answer => Ok((Vec::new(), answer?)),
    }
}

/// Fails as the library refuses the columns, rows and input of a call. It is lent no room: they pass where
/// nothing but the output's length is refused, or nothing is to be written.
pub(crate) fn sizes_pass<T>(call: impl FnOnce(&mut [u8]) -> Result<T, Refusal>) -> Result<(), Refusal> {
    match call(&mut []) {
        Ok(_) | Err(Refusal::OutputLength) => Ok(()),
        Err(refusal) => Err(refusal),
    }
}
