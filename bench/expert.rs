// A Rust desk written for speed, for comparison: the same frames and answers, without proofs. Its sheet is private, so 17 is never
// tested; what is kept of the rules up to each one is remembered, so a step back or forward looks it up; and an add looks at the new
// rule alone where the old ends meet it. The limits are those of the desk that it is compared with (`limits`).
use std::fs::File;
use std::io::{Read, Result, Write, stdin, stdout};
use std::os::fd::AsFd;

mod limits;

use limits::{FORMS, MARKS, RULES};

// The digits of the longest frame: an add with the new edition's words.
const LONGEST: usize = 6 + 2 * 16;
const PART: usize = 65536;
// Answers are written where the next one might not fit: a line on the verdict, and at most 4 n + 1 links.
const ROOM: usize = 37 * (4 * RULES + 2);
const BITS: u64 = 255;
// What no digit has as its value.
const NONE: u8 = 255;
const VALUES: [u8; 256] = values();
const DIGITS: &[u8; 16] = b"0123456789abcdef";

const fn values() -> [u8; 256] {
    let mut table = [NONE; 256];
    let mut at = 0;
    while at < 16 {
        table[DIGITS[at] as usize] = at as u8;
        at += 1;
    }
    table
}

// The words from one on, as many and one more, round the wheel; whether it is they that fail. Differences wrap, so no case is told
// apart where the arc passes the top.
#[derive(Clone, Copy, Default)]
struct Band {
    from: u64,
    more: u64,
    inside: bool,
}

// The bits that the rules fix; where rules clash, no word has them.
#[derive(Clone, Copy, Default)]
struct Fixed {
    mask: u64,
    value: u64,
    clash: bool,
}

#[derive(Clone, Copy, Default)]
struct Kept {
    verdict: u64,
    smallest: u64,
    largest: u64,
}

#[derive(Clone, Copy, Default)]
struct Note {
    kept: Kept,
    fixed: Fixed,
}

// What is kept of the first n rules stands in the nth note, so a blank sheet's width is all that has to be told.
struct Sheet {
    width: u64,
    top: u64,
    digits: usize,
    bands: [Band; RULES],
    notes: [Note; RULES + 1],
    count: usize,
    given: usize,
    marks: [usize; MARKS],
    marked: usize,
    waiting: usize,
}

impl Band {
    fn of(form: u64, negated: bool, c1: u64, c2: u64, top: u64) -> Band {
        let half = top / 2 + 1;
        let wrap = |x: u64| x & top;
        let (from, to) = match form {
            1 => (c1.wrapping_neg(), top.wrapping_sub(c2)),
            2 => (c1.wrapping_sub(c2), top.wrapping_sub(c2)),
            3 => (c1.wrapping_neg(), c2.wrapping_sub(c1)),
            4 => (half, c1),
            5 => (c1, half - 1),
            6 => (c1, c1),
            8 if c2 < half => (c1.wrapping_add(c2), c1.wrapping_add(half).wrapping_sub(1)),
            _ => (0, top),
        };
        // Settled for half or longer fits nothing: the whole wheel, where the inside fails.
        let inside = negated != (form == 8 && c2 >= half);
        let more = wrap(to.wrapping_sub(from));
        // The whole wheel is written from 0, so that no run stops at a seam.
        Band { from: if more == top { 0 } else { wrap(from) }, more, inside }
    }

    #[inline(always)]
    fn holds(&self, x: u64, top: u64) -> bool {
        (x.wrapping_sub(self.from) & top <= self.more) != self.inside
    }

    // The last word of the run of failing words from p on, and its first.
    fn reach(&self, top: u64, p: u64) -> u64 {
        let to = self.from.wrapping_add(self.more) & top;
        match self.inside {
            true if p <= to => to,
            false if p < self.from => self.from - 1,
            _ => top,
        }
    }

    fn start(&self, top: u64, p: u64) -> u64 {
        let to = self.from.wrapping_add(self.more) & top;
        match self.inside {
            true if self.from <= p => self.from,
            false if to < p => to + 1,
            _ => 0,
        }
    }
}

impl Fixed {
    fn with(self, mask: u64, value: u64) -> Fixed {
        let clash = self.clash || self.value & mask != value & self.mask;
        Fixed { mask: self.mask | mask, value: self.value | value, clash }
    }

    fn has(&self, x: u64) -> bool {
        x & self.mask == self.value && !self.clash
    }

    // The smallest word from p on that has the bits.
    fn next(&self, top: u64, p: u64) -> Option<u64> {
        if self.clash {
            return None;
        }
        let wrong = (p ^ self.value) & self.mask;
        if wrong == 0 {
            return Some(p);
        }
        let low = u64::MAX >> wrong.leading_zeros();
        let start = if p & self.mask < self.value {
            p & !low
        } else {
            let full = p | self.mask | low;
            if full >= top {
                return None;
            }
            full + 1
        };
        Some(start & !self.mask | self.value)
    }

    // The largest word up to p that has them: the wheel turned round.
    fn last(&self, top: u64, p: u64) -> Option<u64> {
        let turned = Fixed { value: self.mask ^ self.value, ..*self };
        turned.next(top, top - p).map(|x| top - x)
    }
}

impl Sheet {
    fn in_force(&self) -> usize {
        if self.waiting == 0 { self.given } else { self.marks[self.marked] }
    }

    fn open(&mut self, widest: u64, digits: usize, width: u64) -> u64 {
        if width < 1 || width > widest {
            return 2;
        }
        self.width = width;
        self.top = u64::MAX >> (64 - width);
        self.digits = digits;
        self.notes[0].kept = Kept { verdict: 2, smallest: 0, largest: self.top };
        (self.count, self.given, self.marked, self.waiting) = (0, 0, 0, 0);
        0
    }

    fn add(&mut self, digits: usize, form: u64, sense: u64, c1: u64, c2: u64) -> u64 {
        if self.width == 0 {
            return 1;
        }
        if digits != self.digits {
            return 11;
        }
        if form < 1 || form > FORMS {
            return 3;
        }
        if sense > 1 || sense == 1 && form == 7 {
            return 4;
        }
        if c1 > self.top || c2 > self.top || c2 != 0 && (4..=6).contains(&form) || form == 7 && c2 & !c1 != 0 {
            return 5;
        }
        if self.count == RULES {
            return 6;
        }
        let n = self.count;
        let Note { kept, mut fixed } = self.notes[n];
        let band = Band::of(form, sense != 0, c1, c2, self.top);
        if form == 7 {
            fixed = fixed.with(c1, c2);
        }
        self.bands[n] = band;
        self.count = n + 1;
        self.given = n + 1;
        self.waiting = 0;
        let meets = |x: u64| band.holds(x, self.top) && fixed.has(x);
        let kept = if kept.verdict == 0 || meets(kept.smallest) && meets(kept.largest) { kept } else { self.narrowed(fixed, kept) };
        self.notes[n + 1] = Note { kept, fixed };
        0
    }

    // More rules never lower the smallest word nor raise the largest, so the search goes on from the old ends.
    fn narrowed(&self, fixed: Fixed, kept: Kept) -> Kept {
        let (Some(smallest), Some(largest)) = (self.up(fixed, kept.smallest), self.down(fixed, kept.largest)) else {
            return Kept::default();
        };
        let verdict = if smallest == largest { 1 } else { 2 };
        Kept { verdict, smallest, largest }
    }

    fn up(&self, fixed: Fixed, mut p: u64) -> Option<u64> {
        loop {
            let before = p;
            for band in &self.bands[..self.count] {
                if !band.holds(p, self.top) {
                    let reach = band.reach(self.top, p);
                    if reach == self.top {
                        return None;
                    }
                    p = reach + 1;
                }
            }
            p = fixed.next(self.top, p)?;
            if p == before {
                return Some(p);
            }
        }
    }

    fn down(&self, fixed: Fixed, mut p: u64) -> Option<u64> {
        loop {
            let before = p;
            for band in &self.bands[..self.count] {
                if !band.holds(p, self.top) {
                    p = band.start(self.top, p).checked_sub(1)?;
                }
            }
            p = fixed.last(self.top, p)?;
            if p == before {
                return Some(p);
            }
        }
    }

    fn mark(&mut self) -> u64 {
        if self.width == 0 {
            return 1;
        }
        if self.marked == MARKS {
            return 7;
        }
        self.marks[self.marked] = self.count;
        self.marked += 1;
        self.given = self.count;
        self.waiting = 0;
        0
    }

    fn back(&mut self) -> u64 {
        if self.width == 0 {
            return 1;
        }
        if self.marked == 0 {
            return 8;
        }
        self.marked -= 1;
        self.waiting += 1;
        self.count = self.in_force();
        0
    }

    fn forward(&mut self) -> u64 {
        if self.width == 0 {
            return 1;
        }
        if self.waiting == 0 {
            return 12;
        }
        self.marked += 1;
        self.waiting -= 1;
        self.count = self.in_force();
        0
    }

    fn ask(&self, out: &mut Vec<u8>) {
        if self.width == 0 {
            return put_number(out, 1);
        }
        let Note { kept, fixed } = self.notes[self.count];
        put_line(out, b"a0", &[(2, kept.verdict), (self.digits, kept.smallest), (self.digits, kept.largest)]);
        if kept.verdict == 0 {
            self.put_chain(fixed, out);
        }
    }

    fn put_chain(&self, fixed: Fixed, out: &mut Vec<u8>) {
        let mut p = 0;
        loop {
            let mut far: Option<(u64, usize)> = None;
            for (i, band) in self.bands[..self.count].iter().enumerate() {
                if !band.holds(p, self.top) {
                    let reach = band.reach(self.top, p);
                    if far.is_none_or(|(best, _)| best < reach) {
                        far = Some((reach, i));
                    }
                }
            }
            let (from, to, reason) = match far {
                Some((reach, i)) => (self.bands[i].start(self.top, p), reach, i as u64),
                None => {
                    let next = if p == self.top { None } else { fixed.next(self.top, p + 1) };
                    (p, next.map_or(self.top, |x| x - 1), BITS)
                }
            };
            put_line(out, b"c0", &[(self.digits, from), (self.digits, to), (2, reason)]);
            if to == self.top {
                return;
            }
            p = to + 1;
        }
    }
}

fn put_number(out: &mut Vec<u8>, number: u64) {
    if number == 0 {
        out.extend_from_slice(b"00\n");
    } else {
        put_line(out, b"ff", &[(2, number)]);
    }
}

// A code, and numbers in so many digits each.
#[inline(always)]
fn put_line(out: &mut Vec<u8>, code: &[u8; 2], numbers: &[(usize, u64)]) {
    let mut line = [b'\n'; LONGEST];
    line[..2].copy_from_slice(code);
    let mut end = 2;
    for &(digits, x) in numbers {
        for (k, place) in line[end..end + digits].iter_mut().enumerate() {
            *place = DIGITS[(x >> (4 * (digits - 1 - k)) & 15) as usize];
        }
        end += digits;
    }
    out.extend_from_slice(&line[..=end]);
}

fn number(digits: &[u8]) -> Option<u64> {
    let mut number = 0;
    let mut bad = 0;
    for digit in digits {
        let value = VALUES[*digit as usize];
        bad |= value;
        number = number << 4 | u64::from(value);
    }
    // No digit's value has one of the upper bits.
    if bad < 16 { Some(number) } else { None }
}

fn add(sheet: &mut Sheet, digits: usize, line: &[u8]) -> Option<u64> {
    let (c1, c2) = line[6..].split_at(digits);
    let (form, sense, c1, c2) = (number(&line[2..4])?, number(&line[4..6])?, number(c1)?, number(c2)?);
    Some(sheet.add(digits, form, sense, c1, c2))
}

// The number that a line is answered with; nothing where it is no frame.
fn called(sheet: &mut Sheet, line: &[u8]) -> Option<u64> {
    match (line.len(), line.get(..2)?) {
        (2, b"03") => Some(sheet.mark()),
        (2, b"04") => Some(sheet.back()),
        (2, b"06") => Some(sheet.forward()),
        (4, b"01") => Some(sheet.open(32, 8, number(&line[2..])?)),
        (4, b"11") => Some(sheet.open(64, 16, number(&line[2..])?)),
        (22, b"02") => add(sheet, 8, line),
        (38, b"12") => add(sheet, 16, line),
        _ => None,
    }
}

fn answer(sheet: &mut Sheet, line: &[u8], out: &mut Vec<u8>) {
    if line == b"05" {
        return sheet.ask(out);
    }
    let number = called(sheet, line).unwrap_or(10);
    put_number(out, number);
}

// As many bytes of a line as tell that it is no frame.
fn hold(begun: &mut Vec<u8>, bytes: &[u8]) {
    let room = (LONGEST + 1).saturating_sub(begun.len());
    begun.extend_from_slice(&bytes[..bytes.len().min(room)]);
}

fn main() -> Result<()> {
    let mut input = File::from(stdin().as_fd().try_clone_to_owned()?);
    let mut output = File::from(stdout().as_fd().try_clone_to_owned()?);
    let mut part = vec![0; PART];
    let mut begun = Vec::with_capacity(LONGEST + 1);
    let mut out = Vec::with_capacity(PART + ROOM);
    let mut sheet = Box::new(Sheet {
        width: 0,
        top: 0,
        digits: 0,
        bands: [Band::default(); RULES],
        notes: [Note::default(); RULES + 1],
        count: 0,
        given: 0,
        marks: [0; MARKS],
        marked: 0,
        waiting: 0,
    });
    loop {
        let n = input.read(&mut part)?;
        if n == 0 {
            break;
        }
        let mut rest = &part[..n];
        while let Some(end) = rest.iter().position(|byte| *byte == b'\n') {
            if begun.is_empty() {
                answer(&mut sheet, &rest[..end], &mut out);
            } else {
                hold(&mut begun, &rest[..end]);
                answer(&mut sheet, &begun, &mut out);
                begun.clear();
            }
            rest = &rest[end + 1..];
            if out.len() > PART {
                output.write_all(&out)?;
                out.clear();
            }
        }
        hold(&mut begun, rest);
        output.write_all(&out)?;
        out.clear();
    }
    if !begun.is_empty() {
        answer(&mut sheet, &begun, &mut out);
        output.write_all(&out)?;
    }
    Ok(())
}
