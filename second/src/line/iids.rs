//! An IID as a word: 32 hexadecimal digits, or these as people write them, 8-4-4-4-12 of them with
//! braces about all or without.

use crate::making::rng::Rng;

/// These digits, now and then with hyphens and in braces, and then at times with one of these signs
/// lost, changed or a place too early.
pub fn spelled(digits: Vec<u8>, rng: &mut Rng) -> Vec<u8> {
    let mut word = digits;
    if word.len() < 24 || rng.percent(70) {
        return word;
    }
    [20, 16, 12, 8].into_iter().for_each(|at| word.insert(at, b'-'));
    if rng.percent(50) {
        word = [b"{", &word[..], b"}"].concat();
    }
    let signs: Vec<usize> = (0..word.len()).filter(|at| b"{-}".contains(&word[*at])).collect();
    let at = *rng.pick(&signs);
    match rng.below(8) {
        0 => drop(word.remove(at)),
        1 => word[at] = *rng.pick(b"{-}0"),
        2 => word.swap(at, at.saturating_sub(1)),
        _ => (),
    }
    word
}

/// The bytes that a word asks for; nothing where it cannot be asked.
pub fn read(word: &[u8]) -> Option<Vec<u8>> {
    let inner = word.strip_prefix(b"{").and_then(|rest| rest.strip_suffix(b"}")).unwrap_or(word);
    let groups: Vec<&[u8]> = inner.split(|byte| *byte == b'-').collect();
    let is_written_so = groups.iter().map(|group| group.len()).eq([8, 4, 4, 4, 12]);
    let digits = if is_written_so { groups.concat() } else { word.to_vec() };
    let value = |digit: u8| char::from(digit).to_digit(16);
    let byte = |pair: &[u8]| match *pair {
        [high, low] => Some((value(high)? * 16 + value(low)?) as u8),
        _ => None,
    };
    digits.chunks(2).map(byte).collect()
}
