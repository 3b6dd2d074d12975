//! Files of libxpt, whose directory offset counts from 1 and whose directory stands anywhere: the same
//! in the published layout.

use super::check::{head, stands, word};
use super::format::{refusal, refuse_if, refused, MAX_FILE};
use super::Answer;

/// Writes the file in the published layout and gives its length; the rest of the buffer keeps its
/// bytes, on a refusal all of it.
pub fn adopt(file: &[u8], out: &mut [u8]) -> Answer {
    let (n, pool) = head(file)?;
    // Where zero bytes are put in, and how many.
    let (at, more) = match word(file, 24).checked_sub(1) {
        _ if n == 0 => (pool, 0),
        Some(start) if stands(start, n, pool) => (start, start.next_multiple_of(4) - start),
        _ => return refused(refusal::POSITION, 24),
    };
    let length = file.len() + more;
    refuse_if(length > MAX_FILE, refusal::FORM_SIZE, 0)?;
    let Some(out) = out.get_mut(..length) else {
        return refused(refusal::BUFFER, length);
    };
    let directory = if n == 0 { 0 } else { at + more };
    let words = [length, directory, pool + more].map(|word| (word as u32).to_be_bytes());
    out[..at].copy_from_slice(&file[..at]);
    out[at..at + more].fill(0);
    out[at + more..].copy_from_slice(&file[at..]);
    out[20..32].copy_from_slice(words.as_flattened());
    Ok(length)
}
