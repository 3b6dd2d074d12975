//! The calls themselves, on the caller's list of numbers. Each returns `ANSWERED`; or `TOO_SHORT` where
//! the list has fewer than `ROOM` numbers, and then nothing was written.

/// The answer stands at the front of the list.
pub const ANSWERED: i32 = 0;

/// The list has too little room for some answer.
pub const TOO_SHORT: i32 = 1;

// As include/saniotka.h declares them: a slice is a pointer and a length.
type In = *const u8;
type Out = *mut u8;
type List = *mut u64;

#[rustfmt::skip]
extern "C" {
    fn saniotka_check(f: In, fl: usize, a: List, al: usize) -> i32;
    fn saniotka_iid(f: In, fl: usize, iid: In, il: usize, a: List, al: usize) -> i32;
    fn saniotka_looks(f: In, fl: usize, iid: In, il: usize, a: List, al: usize) -> i32;
    fn saniotka_key(f: In, fl: usize, s: In, sl: usize, n: In, nl: usize, a: List, al: usize) -> i32;
    fn saniotka_method(f: In, fl: usize, i: u64, n: In, nl: usize, k: u64, a: List, al: usize) -> i32;
    fn saniotka_slot(f: In, fl: usize, i: u64, slot: u64, a: List, al: usize) -> i32;
    fn saniotka_constant(f: In, fl: usize, i: u64, n: In, nl: usize, a: List, al: usize) -> i32;
    fn saniotka_normal(f: In, fl: usize, o: Out, ol: usize, a: List, al: usize) -> i32;
    fn saniotka_adopt(f: In, fl: usize, o: Out, ol: usize, a: List, al: usize) -> i32;
    fn saniotka_link(f: In, fl: usize, g: In, gl: usize, o: Out, ol: usize, a: List, al: usize) -> i32;
    fn saniotka_pile_add(n: u64, l: u64, f: In, fl: usize, o: Out, ol: usize, p: Out, pl: usize, a: List, al: usize) -> i32;
    fn saniotka_pile_end(n: u64, l: u64, o: Out, ol: usize, p: Out, pl: usize, a: List, al: usize) -> i32;
    fn saniotka_salvage(f: In, fl: usize, i: List, il: usize, n: List, nl: usize, p: List, pl: usize, o: Out, ol: usize, a: List, al: usize) -> i32;
    fn saniotka_rdb_check(f: In, fl: usize, r: u64, a: List, al: usize) -> i32;
    fn saniotka_rdb_entity(f: In, fl: usize, r: u64, p: In, pl: usize, a: List, al: usize) -> i32;
    fn saniotka_rdb_constant(f: In, fl: usize, r: u64, p: In, pl: usize, a: List, al: usize) -> i32;
}

// SAFETY, of all calls: the library reads at most as many bytes as it is told from what is lent
// shared, and writes at most as many as it is told to what is lent mutably, all of it during the call.
// That nothing else is lent of the same bytes is what a mutable reference says.

pub fn check(file: &[u8], answer: &mut [u64]) -> i32 {
    let (f, a) = (file, answer);
    unsafe { saniotka_check(f.as_ptr(), f.len(), a.as_mut_ptr(), a.len()) }
}

pub fn iid(file: &[u8], iid: &[u8], answer: &mut [u64]) -> i32 {
    let (f, a) = (file, answer);
    unsafe { saniotka_iid(f.as_ptr(), f.len(), iid.as_ptr(), iid.len(), a.as_mut_ptr(), a.len()) }
}

pub fn iid_counted(file: &[u8], iid: &[u8], answer: &mut [u64]) -> i32 {
    let (f, a, i, i_length) = (file, answer, iid.as_ptr(), iid.len());
    unsafe { saniotka_looks(f.as_ptr(), f.len(), i, i_length, a.as_mut_ptr(), a.len()) }
}

pub fn key(file: &[u8], space: &[u8], name: &[u8], answer: &mut [u64]) -> i32 {
    let (f, a, s, s_length) = (file, answer, space.as_ptr(), space.len());
    let (n, n_length) = (name.as_ptr(), name.len());
    unsafe { saniotka_key(f.as_ptr(), f.len(), s, s_length, n, n_length, a.as_mut_ptr(), a.len()) }
}

/// Any kind but 0, 1 and 2 is a malformed question.
pub fn method(file: &[u8], index: u64, name: &[u8], kind: u64, answer: &mut [u64]) -> i32 {
    let (f, a, n, n_length) = (file, answer, name.as_ptr(), name.len());
    unsafe {
        saniotka_method(f.as_ptr(), f.len(), index, n, n_length, kind, a.as_mut_ptr(), a.len())
    }
}

pub fn slot(file: &[u8], index: u64, slot: u64, answer: &mut [u64]) -> i32 {
    let (f, a) = (file, answer);
    unsafe { saniotka_slot(f.as_ptr(), f.len(), index, slot, a.as_mut_ptr(), a.len()) }
}

pub fn constant(file: &[u8], index: u64, name: &[u8], answer: &mut [u64]) -> i32 {
    let (f, a, n, n_length) = (file, answer, name.as_ptr(), name.len());
    unsafe { saniotka_constant(f.as_ptr(), f.len(), index, n, n_length, a.as_mut_ptr(), a.len()) }
}

pub fn normal(file: &[u8], out: &mut [u8], answer: &mut [u64]) -> i32 {
    let (f, a, o, o_length) = (file, answer, out.as_mut_ptr(), out.len());
    unsafe { saniotka_normal(f.as_ptr(), f.len(), o, o_length, a.as_mut_ptr(), a.len()) }
}

pub fn adopt(file: &[u8], out: &mut [u8], answer: &mut [u64]) -> i32 {
    let (f, a, o, o_length) = (file, answer, out.as_mut_ptr(), out.len());
    unsafe { saniotka_adopt(f.as_ptr(), f.len(), o, o_length, a.as_mut_ptr(), a.len()) }
}

pub fn link(first: &[u8], second: &[u8], out: &mut [u8], answer: &mut [u64]) -> i32 {
    let (f, f_length, g, g_length) = (first.as_ptr(), first.len(), second.as_ptr(), second.len());
    let (o, o_length, a, a_length) =
        (out.as_mut_ptr(), out.len(), answer.as_mut_ptr(), answer.len());
    unsafe { saniotka_link(f, f_length, g, g_length, o, o_length, a, a_length) }
}

/// A pile is the number of its files and the length of what they left, in one of the two buffers.
pub fn pile_add(pile: (u64, u64), file: &[u8], both: [&mut [u8]; 2], answer: &mut [u64]) -> i32 {
    let ((n, l), f, [o, p], a) = (pile, file, both, answer);
    let (o, o_length, p, p_length) = (o.as_mut_ptr(), o.len(), p.as_mut_ptr(), p.len());
    let (f, f_length, a, a_length) = (f.as_ptr(), f.len(), a.as_mut_ptr(), a.len());
    unsafe { saniotka_pile_add(n, l, f, f_length, o, o_length, p, p_length, a, a_length) }
}

pub fn pile_end(pile: (u64, u64), both: [&mut [u8]; 2], answer: &mut [u64]) -> i32 {
    let ((n, l), [o, p], a) = (pile, both, answer);
    let (o, o_length, p, p_length) = (o.as_mut_ptr(), o.len(), p.as_mut_ptr(), p.len());
    unsafe { saniotka_pile_end(n, l, o, o_length, p, p_length, a.as_mut_ptr(), a.len()) }
}

/// Indexes, numbers and places of the report.
pub fn salvage(file: &[u8], report: [&mut [u64]; 3], out: &mut [u8], answer: &mut [u64]) -> i32 {
    let (f, [i, n, p], o, a) = (file, report, out, answer);
    let (o, o_length, a, a_length) = (o.as_mut_ptr(), o.len(), a.as_mut_ptr(), a.len());
    let [(i, i_length), (n, n_length), (p, p_length)] =
        [i, n, p].map(|list| (list.as_mut_ptr(), list.len()));
    unsafe {
        saniotka_salvage(
            f.as_ptr(),
            f.len(),
            i,
            i_length,
            n,
            n_length,
            p,
            p_length,
            o,
            o_length,
            a,
            a_length,
        )
    }
}

/// Any reading but 0 and 1 is a malformed question, here and below.
pub fn rdb_check(file: &[u8], reading: u64, answer: &mut [u64]) -> i32 {
    let (f, a) = (file, answer);
    unsafe { saniotka_rdb_check(f.as_ptr(), f.len(), reading, a.as_mut_ptr(), a.len()) }
}

pub fn rdb_entity(file: &[u8], reading: u64, path: &[u8], answer: &mut [u64]) -> i32 {
    let (f, a, p, p_length) = (file, answer, path.as_ptr(), path.len());
    unsafe {
        saniotka_rdb_entity(f.as_ptr(), f.len(), reading, p, p_length, a.as_mut_ptr(), a.len())
    }
}

pub fn rdb_constant(file: &[u8], reading: u64, path: &[u8], answer: &mut [u64]) -> i32 {
    let (f, a, p, p_length) = (file, answer, path.as_ptr(), path.len());
    unsafe {
        saniotka_rdb_constant(f.as_ptr(), f.len(), reading, p, p_length, a.as_mut_ptr(), a.len())
    }
}
