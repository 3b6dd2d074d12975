//! The listing of a typelib, and what the listing program prints for its input.

use super::accepted::Accepted;
use super::check::accept;
use super::format::Refusal;
use super::questions::Constant;
use std::io::{self, Write};

/// The most bytes that the program reads as a typelib.
pub const MAX_INPUT: usize = 65_536;

/// What the program prints for all of its input; of a longer one `MAX_INPUT + 1` bytes do.
pub fn program(input: &[u8], out: &mut impl Write) -> io::Result<()> {
    if input.len() > MAX_INPUT {
        return out.write_all(b"input too long\n");
    }
    list(input, out)
}

/// Prints the listing of a file of any length, or its refusal.
pub fn list(file: &[u8], out: &mut impl Write) -> io::Result<()> {
    match accept(file) {
        Ok(lib) => lib.list(out),
        Err(Refusal { number, place }) => writeln!(out, "refused {number} {place}"),
    }
}

impl Accepted<'_> {
    pub fn list(&self, out: &mut impl Write) -> io::Result<()> {
        let mut page = Page { out, bytes: Vec::with_capacity(PAGE) };
        page.text(b"accepted ").number(self.n as u64).end_line()?;
        let totals = self.method_totals();
        for index in 1..=self.n {
            self.list_entry(index, &totals, &mut page)?;
        }
        page.out.write_all(&page.bytes)
    }

    fn list_entry<W: Write>(
        &self,
        index: usize,
        totals: &[Total],
        page: &mut Page<W>,
    ) -> io::Result<()> {
        let (namespace, name) = self.key(index);
        let namespace = if namespace.is_empty() { b"-" } else { namespace };
        page.text(b"I ").number(index as u64).text(b" ").hex(self.iid(index));
        page.text(b" ").text(namespace).text(b" ").text(name);
        let Some(descriptor) = self.descriptor(index) else {
            return page.text(b" unresolved").end_line();
        };
        let parent = self.parent(index);
        page.text(b" parent ").number(parent as u64).end_line()?;

        let mut walk = self.walk(descriptor);
        for position in 0..walk.pair() {
            let (_, name, arguments) = walk.method();
            match totals[parent] {
                Some(above) => page.text(b"M ").number(above + u64::from(position)),
                None => page.text(b"M ?"),
            };
            let name = walk.identifier(name);
            page.text(b" ").text(name).text(b" ").number(arguments.into());
            match totals[index] {
                Some(total) => page.text(b" ").number(total).end_line()?,
                None => page.text(b" ?").end_line()?,
            }
        }
        for _ in 0..walk.pair() {
            let (name, kind, bits) = walk.constant();
            let value = Constant::new(kind, bits).value();
            page.text(b"C ").text(walk.identifier(name));
            page.text(if value < 0 { b" -" } else { b" " }).number(value.unsigned_abs());
            page.end_line()?;
        }
        Ok(())
    }

    /// By index, with 0 for no parent.
    fn method_totals(&self) -> Vec<Total> {
        let mut totals = vec![None; self.n + 1];
        let mut known = vec![false; self.n + 1];
        (totals[0], known[0]) = (Some(0), true);
        let mut path = Vec::new();
        for mut index in 1..=self.n {
            while !known[index] {
                let Some(descriptor) = self.descriptor(index) else {
                    known[index] = true;
                    break;
                };
                path.push((index, descriptor));
                index = self.parent(index);
            }
            while let Some((below, descriptor)) = path.pop() {
                let own = u64::from(self.method_count(descriptor));
                totals[below] = totals[index].map(|above| above + own);
                known[below] = true;
                index = below;
            }
        }
        totals
    }
}

/// The methods of an entry and all its ancestors, where its chain is complete.
type Total = Option<u64>;

const PAGE: usize = 65_536;

/// Gathers lines and hands them on in large pieces.
struct Page<'w, W> {
    out: &'w mut W,
    bytes: Vec<u8>,
}

impl<W: Write> Page<'_, W> {
    fn text(&mut self, text: &[u8]) -> &mut Self {
        self.bytes.extend_from_slice(text);
        self
    }

    fn number(&mut self, mut number: u64) -> &mut Self {
        let mut digits = [0; 20];
        let mut first = digits.len();
        loop {
            first -= 1;
            digits[first] = b'0' + (number % 10) as u8;
            number /= 10;
            if number == 0 {
                break;
            }
        }
        self.text(&digits[first..])
    }

    fn hex(&mut self, iid: u128) {
        for byte in iid.to_be_bytes() {
            let digit = |half: u8| b"0123456789abcdef"[usize::from(half)];
            self.text(&[digit(byte >> 4), digit(byte & 15)]);
        }
    }

    /// No line has more than 1,024 bytes, so the page never grows.
    fn end_line(&mut self) -> io::Result<()> {
        self.text(b"\n");
        if self.bytes.len() > PAGE - 1_024 {
            self.out.write_all(&self.bytes)?;
            self.bytes.clear();
        }
        Ok(())
    }
}
