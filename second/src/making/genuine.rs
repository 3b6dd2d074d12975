//! Files in libxpt's layout, each with the file that adopting it must give.

use super::faults::put;
use super::{builder::*, damage, generate, pairs, rng::Rng};
use crate::program::check::{check, word};

/// A file and how it was made.
pub struct Genuine {
    pub how: &'static str,
    pub bytes: Vec<u8>,
    /// What adopting it must give, where that is known from how it was made.
    pub twin: Option<Vec<u8>>,
}

/// How many bytes a file loses before its directory, which then is at another alignment.
const LESS: [&str; 4] =
    ["a directory at a multiple of 4", "3 past one", "2 past one", "1 past one"];

/// A file of the published layout in libxpt's: without up to three bytes before its directory; with
/// no interfaces with any field. Nothing where its header is bad.
pub fn genuine(published: &[u8], less: usize, field: u32) -> Option<Genuine> {
    let is_of_header = |why: Refusal| why.number <= refusal::POSITION || why.number >= refusal::CUT;
    if check(published).is_err_and(is_of_header) {
        return None;
    }
    let (mut bytes, mut twin) = (published.to_vec(), published.to_vec());
    let [length, directory, pool] = [20, 24, 28].map(|at| word(published, at));
    let how = if directory == 0 {
        put(&mut bytes, 24, &field.to_be_bytes());
        "no interfaces"
    } else {
        let less = less.min(directory - HEADER - 1);
        twin[directory - less..directory].fill(0);
        bytes.drain(directory - less..directory);
        let words = [length - less, directory - less + 1, pool - less];
        put(&mut bytes, 20, words.map(|word| (word as u32).to_be_bytes()).as_flattened());
        LESS[less]
    };
    Some(Genuine { how, bytes, twin: Some(twin) })
}

/// A good file of any shape, as libxpt lays it out: the directory follows the annotations, for the
/// most part at once.
pub fn any(rng: &mut Rng) -> Genuine {
    let lib = match rng.below(8) {
        0 => pairs::empty(rng),
        1 | 2 => generate::random(rng, generate::SMALL),
        3 => generate::random(rng, generate::MEDIUM),
        4 => generate::rich(generate::minor(rng), Order::Shuffled),
        _ => generate::family(rng),
    };
    // What the annotations lack to a multiple of 4, and at times any number.
    let gap = lib.annotations_end().next_multiple_of(4) - lib.annotations_end();
    let less = if rng.percent(70) { gap } else { rng.below(4) };
    let field = field(rng, word(&lib.bytes(), 28));
    genuine(&lib.bytes(), less, field).expect("a good header")
}

/// A directory's field, where a pool stands at `pool`: any, and those at the edges.
fn field(rng: &mut Rng, pool: usize) -> u32 {
    let (any, near) = (rng.number() as u32, (pool + rng.below(4)) as u32);
    *rng.pick(&[0, 1, 32, 33, 34, 37, near, near - 1, any, u32::MAX, 0x8000_0000])
}

/// The file with other words in its header: each at its edges, some at once.
fn edges(rng: &mut Rng, good: &[u8], take: &mut dyn FnMut(Genuine)) {
    let n = usize::from(u16::from_be_bytes([good[18], good[19]]));
    let [length, directory, pool] = [20, 24, 28].map(|at| word(good, at));
    let last = pool.saturating_sub(ENTRY * n);
    let about =
        |word: usize| [word.wrapping_sub(1), word, word + 1, word + 2].map(|word| word as u32);
    let far = [0, 1, 32, 33, 34, 35, 36, 0x8000_0025, 0xffff_ffe4, u32::MAX - 1, u32::MAX];
    let directories = [&about(last), &about(pool), &about(directory), &far[..]].concat();
    let pools =
        [&about(directory + ENTRY * n - 1), &about(length), &about(pool), &far[..]].concat();
    let mut made = |how: &'static str, changes: &[(usize, &[u8])]| {
        let mut bytes = good.to_vec();
        changes.iter().for_each(|(at, new)| put(&mut bytes, *at, new));
        take(Genuine { how, bytes, twin: None });
    };
    for field in &directories {
        made("another directory", &[(24, &field.to_be_bytes())]);
    }
    for field in &pools {
        made("another pool", &[(28, &field.to_be_bytes())]);
        let directory = rng.pick(&directories).to_be_bytes();
        made("another directory and pool", &[(28, &field.to_be_bytes()), (24, &directory)]);
    }
    for count in [0, 1, n as u16 + 1, 1_023, 1_024, 1_025, 0x0401, 0x8000, u16::MAX] {
        made("another count", &[(18, &count.to_be_bytes())]);
    }
    for field in about(length).into_iter().chain(far) {
        made("another length", &[(20, &field.to_be_bytes())]);
    }
    for (at, new) in [(16, 0), (16, 2), (17, 0), (17, 2), (17, 3), (17, 255)] {
        made("another version", &[(at, &[new])]);
    }
    for at in 0..16 {
        made("another magic", &[(at, &[good[at] ^ 1 << rng.below(8)])]);
    }
}

/// Cut at every length below 64, and somewhere; longer by some bytes.
fn cuts(rng: &mut Rng, good: &[u8], take: &mut dyn FnMut(Genuine)) {
    let lengths = (0..64).chain([rng.below(good.len()), good.len() - 1]);
    for length in lengths.filter(|length| *length < good.len()) {
        take(Genuine { how: "cut", bytes: good[..length].to_vec(), twin: None });
    }
    let more = vec![rng.byte(); rng.range(1, 40)];
    take(Genuine { how: "padded", bytes: [good, &more].concat(), twin: None });
}

/// Files about the greatest size: what is adopted has so many bytes more or less than it.
fn long(take: &mut dyn FnMut(Genuine)) {
    let lib = Typelib { directory_gap: 1, ..Typelib::plain(3) };
    for (less, over) in generate::both(0..4, [-2, -1, 0, 1, 2, 3, 4]) {
        let length = MAX_FILE.checked_add_signed(over).expect("a length");
        let published = lib.filled_to(length.min(MAX_FILE)).bytes();
        let mut made = genuine(&published, less, 0).expect("a good header");
        if length > MAX_FILE {
            let bytes = &mut made.bytes;
            bytes.resize(length - less, 0);
            let own = (bytes.len() as u32).to_be_bytes();
            put(bytes, 20, &own);
            made = Genuine { how: "over the greatest size", twin: None, ..made };
        }
        take(made);
    }
}

/// Hands on files of every shape in libxpt's layout, good and damaged.
pub fn everything(seed: u64, take: &mut dyn FnMut(Genuine)) {
    let rng = &mut Rng::new(seed);
    long(take);
    for lib in generate::special() {
        let published = lib.bytes();
        let (less, field) = (rng.below(4), field(rng, word(&published, 28)));
        genuine(&published, less, field).into_iter().for_each(&mut *take);
    }
    for round in 0..3_000 {
        let good = any(rng);
        if round % 40 == 0 {
            edges(rng, &good.bytes, take);
            cuts(rng, &good.bytes, take);
        }
        // A file of the published layout is adopted as any other.
        let twin = good.twin.as_ref().filter(|_| round % 10 == 0).cloned();
        let published = |bytes| Genuine { how: "published", bytes, twin: None };
        twin.map(published).into_iter().for_each(&mut *take);
        take(good);
    }
    let mut counter = rng.below(151);
    damage::everything(seed, &mut |made| {
        counter += 1;
        if counter.is_multiple_of(151) && made.bytes.len() < 100_000 {
            let (less, field) = (rng.below(4), rng.number() as u32);
            let damaged = genuine(made.bytes, less, field);
            let as_it_is = Genuine { how: "for the check", bytes: made.bytes.to_vec(), twin: None };
            take(damaged.map_or(as_it_is, |made| Genuine { how: "damaged", ..made }));
        }
    });
}
