//! Plays a log.
use std::io::Write;

use crate::run::Run;

/// Every moment is below it.
const MOMENTS: u64 = 1 << 40;
/// As many digits as every number has that a u64 may have.
const DIGITS: usize = 19;

/// A line: a moment, and unless the line is a wait the name of a switch with its raw level.
struct Line<'l> {
    moment: u64,
    change: Option<(&'l [u8], bool)>,
}

impl<'l> Line<'l> {
    /// Most lines are digits, a blank, a name, a blank and a level. Such a line is read once, from its front.
    #[inline(always)]
    fn read(line: &'l [u8]) -> Option<Line<'l>> {
        let (mut moment, mut digits) = (0u64, 0);
        while let Some(byte @ b'0'..=b'9') = line.get(digits) {
            moment = moment.wrapping_mul(10).wrapping_add(u64::from(byte - b'0'));
            digits += 1;
        }
        match &line[digits..] {
            [b' ', name @ .., b' ', level @ (b'0' | b'1')]
                if (1..=DIGITS).contains(&digits) && !name.is_empty() && name.iter().all(|&byte| byte > b' ') =>
            {
                Some(Line { moment, change: Some((name, *level == b'1')) })
            }
            _ => Line::read_words(line),
        }
    }

    /// Reads any line, word by word.
    #[cold]
    #[inline(never)]
    fn read_words(line: &'l [u8]) -> Option<Line<'l>> {
        let digits = line.iter().take_while(|byte| byte.is_ascii_digit()).count();
        let add = |number: u64, byte: &u8| number.checked_mul(10)?.checked_add(u64::from(byte - b'0'));
        let moment = line[..digits].iter().try_fold(0, add).filter(|_| (1..=20).contains(&digits))?;
        if digits == line.len() {
            return Some(Line { moment, change: None });
        }
        let mut words = line[digits..].split(|byte| matches!(byte, b' ' | b'\t')).filter(|word| !word.is_empty());
        let (name, level) = (words.next()?, words.next()?);
        let raw = match level {
            b"0" => false,
            b"1" => true,
            _ => return None,
        };
        let ends = words.next().is_none() && line.ends_with(level) && matches!(line[digits], b' ' | b'\t');
        ends.then_some(Line { moment, change: Some((name, raw)) })
    }
}

impl<W: Write> Run<'_, W> {
    pub fn play(&mut self, log: &[u8]) {
        let (mut number, mut rest) = (0, log);
        while !rest.is_empty() {
            number += 1;
            let end = rest.iter().position(|&byte| byte == b'\n').unwrap_or(rest.len());
            let line = &rest[..end];
            rest = rest.get(end + 1..).unwrap_or_default();
            if line.is_empty() || line[0] == b'#' {
                continue;
            }
            if let Err(reason) = self.play_line(line) {
                self.output.refuse(number, reason);
            }
        }
        self.shut_down();
        self.output.write();
    }

    /// Or gives the first reason against the line.
    #[inline(always)]
    fn play_line(&mut self, line: &[u8]) -> Result<(), &'static str> {
        let Line { moment, change } = Line::read(line).ok_or("8 BadLine")?;
        let change = match change {
            Some((name, raw)) => Some((self.finder.find(name).ok_or("3 NoSuchSwitch")?, raw)),
            None => None,
        };
        if moment < self.now {
            return Err("1 Backwards");
        }
        if moment >= MOMENTS {
            return Err("2 TooLate");
        }
        while let Some((due, source)) = self.alarms.take(moment) {
            self.set_moment(due);
            self.fire(source);
            self.settle();
        }
        self.set_moment(moment);
        if let Some((switch, raw)) = change {
            self.change(switch, raw);
            self.settle();
        }
        Ok(())
    }
}
