//! Where the bytes from a place on stop being those of a name or a text, for every place of a file: found once for
//! all where so many names and texts overlap that they are too long to be looked at one by one.

use super::record::Rule;
use std::ops::Range;

pub(super) struct Stops {
    nul: Vec<u32>,
    ascii: Vec<u32>,
    utf8: Vec<u32>,
}

/// The first place from each on where nothing good starts; else it has this size.
fn stops(file: &[u8], size: impl Fn(&[u8]) -> usize) -> Vec<u32> {
    let mut stops = vec![file.len() as u32; file.len() + 1];
    for at in (0..file.len()).rev() {
        let size = size(&file[at..]);
        stops[at] = if size == 0 { at as u32 } else { stops[at + size] };
    }
    stops
}

/// The size of the character that starts here, 0 for none.
fn character(bytes: &[u8]) -> usize {
    let chunk = bytes[..bytes.len().min(4)].utf8_chunks().next();
    chunk.and_then(|chunk| chunk.valid().chars().next()).map_or(0, char::len_utf8)
}

impl Stops {
    pub fn of(file: &[u8]) -> Stops {
        Stops {
            nul: stops(file, |bytes| usize::from(bytes[0] != 0)),
            ascii: stops(file, |bytes| usize::from(bytes[0].is_ascii())),
            utf8: stops(file, character),
        }
    }

    /// The length of the NUL-Name at `at`, if it has an end.
    pub fn name(&self, at: usize) -> Option<usize> {
        let nul = self.nul[at] as usize;
        (nul + 1 < self.nul.len()).then(|| nul - at)
    }

    /// Whether these bytes of the file are good. Inside of good characters only the first byte of each may stand
    /// behind them.
    pub fn is_good(&self, file: &[u8], Range { start, end }: Range<usize>, rule: Rule) -> bool {
        match rule {
            Rule::Ascii => self.ascii[start] as usize >= end,
            Rule::Utf8 => match self.utf8[start] as usize {
                stop if stop > end => file[end] & 0xc0 != 0x80,
                stop => stop == end,
            },
        }
    }
}
