// A plain Rust desk, for comparison: the same frames and answers, written as one would without proofs, with every refusal
// tested on every line, 17 among them. `plain` answers standard input; `plain talk COMMAND FILE` holds a conversation with
// a command, one line of the file at a time, and says how many microseconds it took. The limits are those of the desk
// that it is compared with (`limits`).
use std::io::{BufRead, BufReader, Read, Write};
use std::process::{Command, Stdio};
use std::time::Instant;

mod limits;

use limits::{FORMS, MARKS, RULES};

// The longest frame: an add with the new edition's words.
const LONGEST: usize = 6 + 2 * Edition::New.terms().digits;
const BITS: u64 = 255;

#[derive(Clone, Copy, PartialEq, Eq)]
enum Edition {
    Old,
    New,
}

// What belongs to an edition: its widest width, the digits of a word, and the codes that open a sheet and add to it.
struct Terms {
    widest: u64,
    digits: usize,
    opens: &'static [u8],
    adds: &'static [u8],
}

impl Edition {
    const fn terms(self) -> Terms {
        match self {
            Edition::Old => Terms { widest: 32, digits: 8, opens: b"01", adds: b"02" },
            Edition::New => Terms { widest: 64, digits: 16, opens: b"11", adds: b"12" },
        }
    }
}

#[derive(Clone, Copy, Default, PartialEq, Eq)]
struct Rule {
    form: u64,
    sense: u64,
    c1: u64,
    c2: u64,
}

#[derive(Clone, Copy, Default, PartialEq, Eq)]
struct Kept {
    verdict: u64,
    smallest: u64,
    largest: u64,
}

#[derive(Clone, Copy)]
struct Band {
    from: u64,
    to: u64,
    inside: bool,
}

// Mask and value; nothing where rules clash.
type Fixed = Option<(u64, u64)>;

struct Link {
    from: u64,
    to: u64,
    reason: u64,
}

struct Sheet {
    edition: Edition,
    width: u64,
    rules: [Rule; RULES],
    count: usize,
    marks: [usize; MARKS],
    marked: usize,
    kept: Kept,
    // Rules in force with those that wait, and stretches that wait: they lie above what is in force.
    given: usize,
    waiting: usize,
}

// At width 64 one more than this is no word.
fn top(width: u64) -> u64 {
    u64::MAX >> (64 - width)
}

impl Rule {
    fn refused(&self, width: u64) -> u64 {
        if self.form < 1 || self.form > FORMS {
            return 3;
        }
        if self.sense > 1 || self.sense == 1 && self.form == 7 {
            return 4;
        }
        let top = top(width);
        if self.c1 > top || self.c2 > top || self.c2 != 0 && (4..=6).contains(&self.form) {
            return 5;
        }
        if self.form == 7 && self.c2 & !self.c1 != 0 {
            return 5;
        }
        0
    }
}

impl Band {
    fn of(rule: &Rule, width: u64) -> Band {
        let top = top(width);
        let half = 1 << (width - 1);
        let add = |a: u64, b: u64| a.wrapping_add(b) & top;
        let sub = |a: u64, b: u64| a.wrapping_sub(b) & top;
        let (c1, c2) = (rule.c1, rule.c2);
        let (from, to) = match rule.form {
            1 => (sub(0, c1), sub(top, c2)),
            2 => (sub(c1, c2), sub(top, c2)),
            3 => (sub(0, c1), sub(c2, c1)),
            4 => (half, c1),
            5 => (c1, half - 1),
            6 => (c1, c1),
            8 if c2 < half => (add(c1, c2), sub(add(c1, half), 1)),
            _ => (0, top),
        };
        // Settled for half or longer fits nothing: the whole wheel, where the inside fails.
        let none = rule.form == 8 && c2 >= half;
        let inside = (rule.sense != 0) != none;
        if sub(to, from) == top {
            return Band { from: 0, to: top, inside };
        }
        Band { from, to, inside }
    }

    fn holds(&self, x: u64) -> bool {
        let within = if self.from <= self.to {
            self.from <= x && x <= self.to
        } else {
            x <= self.to || self.from <= x
        };
        within != self.inside
    }

    // The end of the run of failing words from p on.
    fn reach(&self, top: u64, p: u64) -> u64 {
        if self.inside {
            if p <= self.to {
                return self.to;
            }
        } else if p < self.from {
            return self.from - 1;
        }
        top
    }

    // The start of the run of failing words around p.
    fn start(&self, p: u64) -> u64 {
        if self.inside {
            if self.from <= p {
                return self.from;
            }
        } else if self.to < p {
            return self.to + 1;
        }
        0
    }

    fn turned(&self, top: u64) -> Band {
        Band {
            from: top - self.to,
            to: top - self.from,
            inside: self.inside,
        }
    }
}

fn joined(fixed: Fixed, rule: &Rule) -> Fixed {
    if rule.form != 7 {
        return fixed;
    }
    let (mask, value) = fixed?;
    if rule.c2 & rule.c1 != rule.c2 || value & rule.c1 != rule.c2 & mask {
        return None;
    }
    Some((mask | rule.c1, value | rule.c2))
}

// The smallest word from p on that has the bits.
fn next(fixed: Fixed, top: u64, p: u64) -> Option<u64> {
    let (mask, value) = fixed?;
    let wrong = (p ^ value) & mask;
    if wrong == 0 {
        return Some(p);
    }
    let low = u64::MAX >> wrong.leading_zeros();
    let start = if p & mask < value {
        p & !low
    } else {
        let full = p | mask | low;
        if full >= top {
            return None;
        }
        full + 1
    };
    Some(start & !mask | value)
}

fn sweep(bands: &[Band], fixed: Fixed, top: u64) -> Option<u64> {
    let mut p = 0;
    'words: loop {
        for band in bands {
            if !band.holds(p) {
                let reach = band.reach(top, p);
                if reach == top {
                    return None;
                }
                p = reach + 1;
                continue 'words;
            }
        }
        let x = next(fixed, top, p)?;
        if x == p {
            return Some(p);
        }
        p = x;
    }
}

fn laid(rules: &[Rule], width: u64) -> (Vec<Band>, Fixed) {
    let bands = rules.iter().map(|rule| Band::of(rule, width)).collect();
    let fixed = rules.iter().fold(Some((0, 0)), joined);
    (bands, fixed)
}

fn solve(rules: &[Rule], width: u64) -> Kept {
    let top = top(width);
    let (mut bands, fixed) = laid(rules, width);
    let Some(smallest) = sweep(&bands, fixed, top) else {
        return Kept::default();
    };
    for band in &mut bands {
        *band = band.turned(top);
    }
    let turned = fixed.map(|(mask, value)| (mask, mask ^ value));
    let Some(last) = sweep(&bands, turned, top) else {
        return Kept::default();
    };
    let largest = top - last;
    let verdict = if smallest == largest { 1 } else { 2 };
    Kept { verdict, smallest, largest }
}

fn chain(rules: &[Rule], width: u64, links: &mut Vec<Link>) {
    let top = top(width);
    let (bands, fixed) = laid(rules, width);
    let mut p = 0;
    loop {
        let mut far: Option<(u64, usize)> = None;
        for (i, band) in bands.iter().enumerate() {
            if !band.holds(p) {
                let reach = band.reach(top, p);
                if far.is_none_or(|(best, _)| best < reach) {
                    far = Some((reach, i));
                }
            }
        }
        let (from, to, reason) = match far {
            Some((reach, i)) => (bands[i].start(p), reach, i as u64),
            None => {
                let next = if p == top { None } else { next(fixed, top, p + 1) };
                (p, next.map_or(top, |x| x - 1), BITS)
            }
        };
        links.push(Link { from, to, reason });
        if to == top {
            return;
        }
        p = to + 1;
    }
}

impl Sheet {
    fn blank() -> Sheet {
        Sheet {
            edition: Edition::Old,
            width: 0,
            rules: [Rule::default(); RULES],
            count: 0,
            marks: [0; MARKS],
            marked: 0,
            kept: Kept::default(),
            given: 0,
            waiting: 0,
        }
    }

    fn is_sheet(&self) -> bool {
        if self.given > RULES || self.marked > MARKS || self.waiting > MARKS - self.marked {
            return false;
        }
        if self.width > self.edition.terms().widest {
            return false;
        }
        let (rules, free) = self.rules.split_at(self.given);
        let (marks, unset) = self.marks.split_at(self.marked + self.waiting);
        if free.iter().any(|rule| *rule != Rule::default()) || unset.iter().any(|mark| *mark != 0) {
            return false;
        }
        if self.width == 0 {
            let unused = self.given == 0 && marks.is_empty() && self.count == 0;
            return self.edition == Edition::Old && unused && self.kept == Kept::default();
        }
        marks.is_sorted()
            && marks.last().is_none_or(|mark| *mark <= self.given)
            && self.count == self.in_force()
            && rules.iter().all(|rule| rule.refused(self.width) == 0)
            && self.kept == solve(&rules[..self.count], self.width)
    }

    // The rules in force: all where nothing waits, else as many as the next mark to come back notes.
    fn in_force(&self) -> usize {
        if self.waiting == 0 { self.given } else { self.marks[self.marked] }
    }

    // Throws away what waits.
    fn cleared(&mut self) {
        self.rules[self.count..self.given].fill(Rule::default());
        self.marks[self.marked..self.marked + self.waiting].fill(0);
        self.given = self.count;
        self.waiting = 0;
    }

    // 17 or 1, what every call but an opening tests first; else 0.
    fn standing(&self) -> u64 {
        if !self.is_sheet() {
            return 17;
        }
        if self.width == 0 { 1 } else { 0 }
    }

    fn solved(&mut self) {
        self.kept = solve(&self.rules[..self.count], self.width);
    }

    fn open(&mut self, edition: Edition, width: u64) -> u64 {
        if width < 1 || width > edition.terms().widest {
            return 2;
        }
        *self = Sheet::blank();
        self.edition = edition;
        self.width = width;
        self.solved();
        0
    }

    fn add(&mut self, edition: Edition, rule: Rule) -> u64 {
        let number = self.standing();
        if number != 0 {
            return number;
        }
        if edition != self.edition {
            return 11;
        }
        let number = rule.refused(self.width);
        if number != 0 {
            return number;
        }
        if self.count == RULES {
            return 6;
        }
        self.cleared();
        self.rules[self.count] = rule;
        self.count += 1;
        self.given = self.count;
        self.solved();
        0
    }

    fn mark(&mut self) -> u64 {
        let number = self.standing();
        if number != 0 {
            return number;
        }
        if self.marked == MARKS {
            return 7;
        }
        self.cleared();
        self.marks[self.marked] = self.count;
        self.marked += 1;
        0
    }

    fn back(&mut self) -> u64 {
        let number = self.standing();
        if number != 0 {
            return number;
        }
        if self.marked == 0 {
            return 8;
        }
        self.marked -= 1;
        self.waiting += 1;
        self.count = self.in_force();
        self.solved();
        0
    }

    fn forward(&mut self) -> u64 {
        let number = self.standing();
        if number != 0 {
            return number;
        }
        if self.waiting == 0 {
            return 12;
        }
        self.marked += 1;
        self.waiting -= 1;
        self.count = self.in_force();
        self.solved();
        0
    }
}

fn number(digits: &[u8]) -> Option<u64> {
    digits.iter().try_fold(0, |n, digit| {
        let value = match digit {
            b'0'..=b'9' => digit - b'0',
            b'a'..=b'f' => digit - b'a' + 10,
            _ => return None,
        };
        Some(n << 4 | u64::from(value))
    })
}

fn put(out: &mut Vec<u8>, digits: usize, x: u64) {
    for k in (0..digits).rev() {
        out.push(b"0123456789abcdef"[(x >> (4 * k) & 15) as usize]);
    }
}

fn put_number(out: &mut Vec<u8>, number: u64) {
    if number == 0 {
        out.extend_from_slice(b"00\n");
    } else {
        out.extend_from_slice(b"ff");
        put(out, 2, number);
        out.push(b'\n');
    }
}

fn ask(sheet: &Sheet, links: &mut Vec<Link>, out: &mut Vec<u8>) {
    let number = sheet.standing();
    if number != 0 {
        put_number(out, number);
        return;
    }
    links.clear();
    if sheet.kept.verdict == 0 {
        chain(&sheet.rules[..sheet.count], sheet.width, links);
    }
    let digits = sheet.edition.terms().digits;
    out.extend_from_slice(b"a0");
    put(out, 2, sheet.kept.verdict);
    put(out, digits, sheet.kept.smallest);
    put(out, digits, sheet.kept.largest);
    out.push(b'\n');
    for link in links.iter() {
        out.extend_from_slice(b"c0");
        put(out, digits, link.from);
        put(out, digits, link.to);
        put(out, 2, link.reason);
        out.push(b'\n');
    }
}

enum Frame {
    Open(Edition, u64),
    Add(Edition, Rule),
    Mark,
    Back,
    Ask,
    Forward,
}

fn frame(line: &[u8]) -> Option<Frame> {
    match line {
        b"03" => return Some(Frame::Mark),
        b"04" => return Some(Frame::Back),
        b"05" => return Some(Frame::Ask),
        b"06" => return Some(Frame::Forward),
        _ => (),
    }
    let (code, rest) = line.split_at_checked(2)?;
    for edition in [Edition::Old, Edition::New] {
        let terms = edition.terms();
        if code == terms.opens && rest.len() == 2 {
            return Some(Frame::Open(edition, number(rest)?));
        }
        if code == terms.adds && rest.len() == 4 + 2 * terms.digits {
            let (c1, c2) = rest[4..].split_at(terms.digits);
            let rule = Rule { form: number(&rest[..2])?, sense: number(&rest[2..4])?, c1: number(c1)?, c2: number(c2)? };
            return Some(Frame::Add(edition, rule));
        }
    }
    None
}

fn answer(sheet: &mut Sheet, line: &[u8], links: &mut Vec<Link>, out: &mut Vec<u8>) {
    let number = match frame(line) {
        Some(Frame::Open(edition, width)) => sheet.open(edition, width),
        Some(Frame::Add(edition, rule)) => sheet.add(edition, rule),
        Some(Frame::Mark) => sheet.mark(),
        Some(Frame::Back) => sheet.back(),
        Some(Frame::Ask) => return ask(sheet, links, out),
        Some(Frame::Forward) => sheet.forward(),
        None => 10,
    };
    put_number(out, number);
}

fn desk() -> std::io::Result<()> {
    let (mut input, mut output) = (std::io::stdin().lock(), std::io::stdout().lock());
    let mut part = vec![0; 65536];
    let mut begun: Vec<u8> = Vec::new();
    let mut out = Vec::with_capacity(65536);
    let mut links = Vec::new();
    let mut sheet = Sheet::blank();
    while let n @ 1.. = input.read(&mut part)? {
        let mut rest = &part[..n];
        while let Some(end) = rest.iter().position(|byte| *byte == b'\n') {
            if begun.is_empty() {
                answer(&mut sheet, &rest[..end], &mut links, &mut out);
            } else {
                let room = (LONGEST + 1).saturating_sub(begun.len());
                begun.extend_from_slice(&rest[..end.min(room)]);
                answer(&mut sheet, &begun, &mut links, &mut out);
                begun.clear();
            }
            rest = &rest[end + 1..];
            if out.len() > 60000 {
                output.write_all(&out)?;
                out.clear();
            }
        }
        let room = (LONGEST + 1).saturating_sub(begun.len());
        begun.extend_from_slice(&rest[..rest.len().min(room)]);
        output.write_all(&out)?;
        output.flush()?;
        out.clear();
    }
    if !begun.is_empty() {
        answer(&mut sheet, &begun, &mut links, &mut out);
        output.write_all(&out)?;
    }
    output.flush()
}

// Each line is written alone, and the next waits for its answer, which is one line.
fn talk(command: &str, file: &str) -> std::io::Result<()> {
    let text = std::fs::read(file)?;
    let mut child = Command::new(command).stdin(Stdio::piped()).stdout(Stdio::piped()).spawn()?;
    let mut to = child.stdin.take().expect("piped");
    let mut from = BufReader::new(child.stdout.take().expect("piped"));
    let start = Instant::now();
    let mut answer = Vec::new();
    for line in text.split_inclusive(|byte| *byte == b'\n') {
        to.write_all(line)?;
        answer.clear();
        from.read_until(b'\n', &mut answer)?;
    }
    println!("{}", start.elapsed().as_micros());
    drop(to);
    child.wait()?;
    Ok(())
}

fn main() -> std::io::Result<()> {
    let words: Vec<String> = std::env::args().collect();
    match words.as_slice() {
        [_, word, command, file] if word == "talk" => talk(command, file),
        _ => desk(),
    }
}
