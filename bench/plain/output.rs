//! The lines of a play, as bytes. Most of a line is made before the play begins.
use std::io::Write;

use crate::plan::{Owner, MACHINE};

/// Once so many bytes wait, they are written.
const FULL: usize = 1 << 16;
/// No line has so many.
const LINE: usize = 1 << 12;
/// So many are copied at once: the compiler knows the number, so that this is a few instructions and no call.
const BLOCK: usize = 32;
/// No number has more.
const DIGITS: usize = 20;

/// A part of a line. What its block has behind the end of the text is written too, and then written over.
pub struct Text {
    block: [u8; BLOCK],
    length: usize,
    rest: Box<[u8]>,
}

impl Text {
    pub fn new(text: &str) -> Text {
        let (first, rest) = text.as_bytes().split_at(text.len().min(BLOCK));
        let mut block = [0; BLOCK];
        block[..first.len()].copy_from_slice(first);
        Text { block, length: text.len(), rest: rest.into() }
    }
}

pub struct Output<W: Write> {
    to: W,
    bytes: Box<[u8]>,
    length: usize,
    /// The moment in digits, and then ` machine`, with which most lines begin.
    front: [u8; BLOCK],
    digits: usize,
    front_length: usize,
    /// The names of the owners, each with a blank before it.
    owners: Vec<Text>,
}

impl<W: Write> Output<W> {
    pub fn new(to: W, owners: &[String]) -> Output<W> {
        let owners = owners.iter().map(|owner| Text::new(&format!(" {owner}"))).collect();
        let bytes = vec![0; FULL + LINE].into();
        let mut output = Output { to, bytes, length: 0, front: [0; BLOCK], digits: 0, front_length: 0, owners };
        output.set_moment(0);
        output
    }

    /// The moment of the lines from now on.
    #[inline(never)]
    pub fn set_moment(&mut self, moment: u64) {
        let mut buffer = [0; DIGITS];
        let first = write_digits(&mut buffer, moment);
        self.digits = DIGITS - first;
        self.front_length = self.digits + OF_MACHINE.len();
        self.front[..self.digits].copy_from_slice(&buffer[first..]);
        self.front[self.digits..self.front_length].copy_from_slice(OF_MACHINE);
    }

    /// Begins a line with its moment and its owner. What comes next begins with a blank.
    #[inline(always)]
    pub fn begin(&mut self, owner: Owner) {
        self.make_room();
        let start = self.length;
        self.bytes[start..start + BLOCK].copy_from_slice(&self.front);
        if owner == MACHINE {
            self.length += self.front_length;
        } else {
            self.length += self.digits;
            put(&mut self.bytes, &mut self.length, &self.owners[owner as usize]);
        }
    }

    /// A whole line, of which the text has all that follows the owner.
    #[inline(always)]
    pub fn line(&mut self, owner: Owner, text: &Text) {
        self.begin(owner);
        self.put(text);
    }

    #[inline(always)]
    pub fn put(&mut self, text: &Text) {
        put(&mut self.bytes, &mut self.length, text);
    }

    #[inline(always)]
    pub fn push(&mut self, text: &[u8]) {
        let start = self.length;
        self.bytes[start..start + text.len()].copy_from_slice(text);
        self.length += text.len();
    }

    /// A blank, and the number.
    #[inline(always)]
    pub fn push_number(&mut self, number: i64) {
        self.push(if number < 0 { b" -" } else { b" " });
        let mut buffer = [0; DIGITS];
        let first = write_digits(&mut buffer, number.unsigned_abs());
        self.push(&buffer[first..]);
    }

    #[inline(always)]
    pub fn end(&mut self) {
        self.push(b"\n");
    }

    /// The line of a log has this number, and is refused.
    #[cold]
    pub fn refuse(&mut self, line: usize, reason: &str) {
        self.make_room();
        self.push(format!("refused {line} {reason}\n").as_bytes());
    }

    fn make_room(&mut self) {
        if self.length >= FULL {
            self.write();
        }
    }

    /// Writes what waits. Like `println!`, it panics if that fails.
    #[cold]
    pub fn write(&mut self) {
        self.to.write_all(&self.bytes[..self.length]).expect("the lines are written");
        self.length = 0;
    }
}

const OF_MACHINE: &[u8] = b" machine";

#[inline(always)]
fn put(bytes: &mut [u8], length: &mut usize, text: &Text) {
    let start = *length;
    bytes[start..start + BLOCK].copy_from_slice(&text.block);
    *length += text.length;
    if text.length > BLOCK {
        put_rest(bytes, start + BLOCK, &text.rest);
    }
}

#[inline(never)]
fn put_rest(bytes: &mut [u8], start: usize, rest: &[u8]) {
    bytes[start..start + rest.len()].copy_from_slice(rest);
}

/// Each number below 100, in two digits.
static PAIRS: [[u8; 2]; 100] = {
    let mut pairs = [[b'0'; 2]; 100];
    let mut number = 0;
    while number < 100 {
        pairs[number][0] += (number / 10) as u8;
        pairs[number][1] += (number % 10) as u8;
        number += 1;
    }
    pairs
};

/// Writes the digits of a number to the end of a buffer, and gives where they begin.
fn write_digits(buffer: &mut [u8; DIGITS], number: u64) -> usize {
    let (mut first, mut rest) = (DIGITS, number);
    while rest >= 100 {
        first -= 2;
        buffer[first..first + 2].copy_from_slice(&PAIRS[(rest % 100) as usize]);
        rest /= 100;
    }
    let last = PAIRS[rest as usize];
    buffer[first - 1] = last[1];
    if rest < 10 {
        return first - 1;
    }
    buffer[first - 2] = last[0];
    first - 2
}
