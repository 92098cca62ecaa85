// A second reading of docs/RULES.md: the memory and its trace program.
// Build with `rustc -O plain.rs`, test with `rustc --test plain.rs`.

use std::convert::TryInto;
use std::io::{self, Read, Write};
use std::marker::PhantomData;

const INPUT_LIMIT: usize = 65_536;
const LINE_LENGTH: usize = 41;
const GRANULES: u64 = 8_192;
const TABLE: usize = 64;
const MAX_SIZE: u64 = 65_536;
const U32: u64 = u32::MAX as u64;

#[derive(Clone, Copy, Debug, PartialEq, Eq)]
enum Refusal {
    InputTooLong = 1,
    LineLength = 2,
    FieldForm = 3,
    NumberTooLarge = 4,
    NotListed = 5,
    FieldMissing = 6,
    FieldUnneeded = 7,
    NoSuchSlot = 11,
    BadParameter = 12,
    Untagged = 13,
    MissingRight = 14,
    Misaligned = 15,
    OutOfBounds = 16,
    NotCarried = 17,
    NotLive = 18,
    NotWholeBlock = 19,
    TableFull = 20,
    SerialsExhausted = 21,
    NoRoom = 22,
    SweepOpen = 23,
    SweepShut = 24,
    SweepUnfinished = 25,
}

// ---- capabilities and formats ----

const LOAD: u64 = 1;
const STORE: u64 = 2;
const LOAD_CAP: u64 = 4;
const STORE_CAP: u64 = 8;
const GLOBAL: u64 = 16;
const STORE_LOCAL: u64 = 32;
const ALL_RIGHTS: u64 = 63;

#[derive(Clone, Copy, Debug, PartialEq, Eq)]
struct Capability {
    base: u64,
    top: u64,
    address: u64,
    rights: u64,
}

impl Capability {
    fn need(&self, rights: u64) -> Result<(), Refusal> {
        if self.rights & rights == rights { Ok(()) } else { Err(Refusal::MissingRight) }
    }

    fn covers(&self, start: u64, length: u64) -> bool {
        start >= self.base && start <= self.top && length <= self.top - start
    }

    fn reach(&self, length: u64) -> Result<(), Refusal> {
        if self.covers(self.address, length) { Ok(()) } else { Err(Refusal::OutOfBounds) }
    }
}

trait Format {
    const SPAN: u64;
    /// The word of a capability, if it is carried.
    fn write(c: &Capability) -> Option<u64>;
    /// The capability of a word that `write` made.
    fn read(word: u64) -> Capability;
    /// The unit of a size from 1 to 65,536.
    fn unit(size: u64) -> u64;
    fn is_global(word: u64) -> bool;
}

struct Compact;

impl Format for Compact {
    const SPAN: u64 = 4_294_967_288;

    fn write(c: &Capability) -> Option<u64> {
        if c.base >= c.top || c.top > Self::SPAN {
            return None;
        }
        let e = (c.base | c.top).trailing_zeros().min(14);
        if c.top - c.base > 511 << e || c.address < c.base || c.address - c.base >= 512 << e {
            return None;
        }
        let b = (c.base >> e) & 511;
        let t = (c.top >> e) & 511;
        Some(c.address | b << 32 | t << 41 | u64::from(e) << 50 | c.rights << 54)
    }

    fn read(word: u64) -> Capability {
        let address = word & U32;
        let b = (word >> 32) & 511;
        let t = (word >> 41) & 511;
        let e = (word >> 50) & 15;
        let a = address >> e;
        let base = (a - (a.wrapping_sub(b) & 511)) << e;
        let top = base + ((t.wrapping_sub(b) & 511) << e);
        Capability { base, top, address, rights: (word >> 54) & 63 }
    }

    fn unit(size: u64) -> u64 {
        let mut unit = 8;
        while size > 511 * unit {
            unit *= 2;
        }
        unit
    }

    fn is_global(word: u64) -> bool {
        (word >> 54) & GLOBAL != 0
    }
}

struct Exact;

impl Format for Exact {
    const SPAN: u64 = 65_536;

    fn write(c: &Capability) -> Option<u64> {
        if c.base >= c.top || c.top > Self::SPAN || c.address >= 65_536 {
            return None;
        }
        Some(c.base | (c.top - 1) << 16 | c.address << 32 | c.rights << 48)
    }

    fn read(word: u64) -> Capability {
        Capability {
            base: word & 65_535,
            top: ((word >> 16) & 65_535) + 1,
            address: (word >> 32) & 65_535,
            rights: (word >> 48) & 63,
        }
    }

    fn unit(_size: u64) -> u64 {
        8
    }

    fn is_global(word: u64) -> bool {
        (word >> 48) & GLOBAL != 0
    }
}

// ---- the memory ----

#[derive(Clone, Copy, PartialEq, Eq)]
enum State {
    Live,
    Freed,
    Condemned,
}

#[derive(Clone, Copy)]
struct Block {
    start: u64,
    end: u64,
    serial: u64,
    state: State,
}

#[derive(Clone, Copy, Default)]
struct Slot {
    word: u64,
    tag: bool,
}

struct Memory<F> {
    slots: [Slot; 16],
    blocks: Vec<Block>, // by start
    serial: u64,
    cursor: Option<usize>, // none while the sweep is shut
    low: u64,              // address of granule 0
    usable: usize,
    data: Vec<u8>,
    tags: Vec<bool>,
    format: PhantomData<F>,
}

/// One call; a field that the call does not have is 0.
#[derive(Clone, Copy)]
struct Call {
    code: u64,
    a: u64,
    b: u64,
    p: u64,
    q: u64,
}

fn round_up(n: u64, unit: u64) -> u64 {
    (n + unit - 1) & !(unit - 1)
}

impl<F: Format> Memory<F> {
    fn start(count: u64, first: u64, serial: u64) -> Self {
        let usable = (F::SPAN / 8).saturating_sub(first).min(count) as usize;
        Memory {
            slots: [Slot::default(); 16],
            blocks: Vec::with_capacity(TABLE),
            serial,
            cursor: None,
            low: 8 * first,
            usable,
            data: vec![0; 8 * count as usize],
            tags: vec![false; count as usize],
            format: PhantomData,
        }
    }

    fn call(&mut self, c: &Call) -> Result<u64, Refusal> {
        if c.a > 15 || c.b > 15 {
            return Err(Refusal::NoSuchSlot);
        }
        let (a, b) = (c.a as usize, c.b as usize);
        match c.code {
            1 => self.allocate(a, c.p),
            2 => self.free(a),
            3 => self.move_to(a, b, c.p),
            4 => self.narrow(a, b, c.p, c.q),
            5 => self.restrict(a, b, c.p),
            6 => self.load(a, c.p),
            7 => self.store(a, c.p, c.q),
            8 => self.fetch(a, b),
            9 => self.put(a, b),
            10 => self.copy(a, b, c.p),
            11 => self.open(),
            12 => self.advance(c.p),
            13 => self.close(),
            14 => self.whose(a),
            _ => Ok(self.tally()),
        }
    }

    /// The capability in a slot that must be tagged.
    fn capability(&self, slot: usize) -> Result<Capability, Refusal> {
        let s = self.slots[slot];
        if s.tag { Ok(F::read(s.word)) } else { Err(Refusal::Untagged) }
    }

    fn set_slot(&mut self, slot: usize, c: Capability) -> Result<u64, Refusal> {
        let word = F::write(&c).ok_or(Refusal::NotCarried)?;
        self.slots[slot] = Slot { word, tag: true };
        Ok(0)
    }

    /// The index of the block that holds a byte; every tagged capability's
    /// base lies in one.
    fn block_of(&self, base: u64) -> usize {
        self.blocks.partition_point(|b| b.start <= base) - 1
    }

    fn is_condemned(&self, word: u64) -> bool {
        self.blocks[self.block_of(F::read(word).base)].state == State::Condemned
    }

    /// Where an address lies in the data.
    fn offset(&self, address: u64) -> usize {
        (address - self.low) as usize
    }

    fn word(&self, granule: usize) -> u64 {
        u64::from_le_bytes(self.data[8 * granule..8 * granule + 8].try_into().unwrap())
    }

    fn untag(&mut self, offset: usize, length: usize) {
        self.tags[offset / 8..=(offset + length - 1) / 8].fill(false);
    }

    fn allocate(&mut self, a: usize, size: u64) -> Result<u64, Refusal> {
        if size == 0 || size > MAX_SIZE {
            return Err(Refusal::BadParameter);
        }
        if self.blocks.len() == TABLE {
            return Err(Refusal::TableFull);
        }
        if self.serial > U32 {
            return Err(Refusal::SerialsExhausted);
        }
        let unit = F::unit(size);
        let length = round_up(size, unit);
        let mut start = round_up(self.low, unit);
        let mut index = self.blocks.len();
        for (i, block) in self.blocks.iter().enumerate() {
            if start + length <= block.start {
                index = i;
                break;
            }
            start = start.max(round_up(block.end, unit));
        }
        let end = start + length;
        if end > self.low + 8 * self.usable as u64 {
            return Err(Refusal::NoRoom);
        }
        let serial = self.serial;
        self.set_slot(a, Capability { base: start, top: end, address: start, rights: ALL_RIGHTS })?;
        self.blocks.insert(index, Block { start, end, serial, state: State::Live });
        self.serial += 1;
        let (from, to) = (self.offset(start), self.offset(end));
        self.data[from..to].fill(0);
        self.tags[from / 8..to / 8].fill(false);
        Ok(serial)
    }

    fn free(&mut self, a: usize) -> Result<u64, Refusal> {
        let c = self.capability(a)?;
        let index = self.block_of(c.base);
        let block = &mut self.blocks[index];
        if block.state != State::Live {
            return Err(Refusal::NotLive);
        }
        if c.base != block.start || c.top != block.end {
            return Err(Refusal::NotWholeBlock);
        }
        block.state = State::Freed;
        Ok(block.serial)
    }

    fn move_to(&mut self, a: usize, b: usize, address: u64) -> Result<u64, Refusal> {
        let c = self.capability(b)?;
        self.set_slot(a, Capability { address, ..c })
    }

    fn narrow(&mut self, a: usize, b: usize, base: u64, length: u64) -> Result<u64, Refusal> {
        if length == 0 {
            return Err(Refusal::BadParameter);
        }
        let c = self.capability(b)?;
        if !c.covers(base, length) {
            return Err(Refusal::OutOfBounds);
        }
        self.set_slot(a, Capability { base, top: base + length, address: base, rights: c.rights })
    }

    fn restrict(&mut self, a: usize, b: usize, mask: u64) -> Result<u64, Refusal> {
        if mask > ALL_RIGHTS {
            return Err(Refusal::BadParameter);
        }
        let c = self.capability(b)?;
        self.set_slot(a, Capability { rights: c.rights & mask, ..c })
    }

    fn load(&mut self, a: usize, width: u64) -> Result<u64, Refusal> {
        if !matches!(width, 1 | 2 | 4 | 8) {
            return Err(Refusal::BadParameter);
        }
        let c = self.capability(a)?;
        c.need(LOAD)?;
        c.reach(width)?;
        let (at, width) = (self.offset(c.address), width as usize);
        let mut bytes = [0; 8];
        bytes[..width].copy_from_slice(&self.data[at..at + width]);
        Ok(u64::from_le_bytes(bytes))
    }

    fn store(&mut self, a: usize, width: u64, value: u64) -> Result<u64, Refusal> {
        if !matches!(width, 1 | 2 | 4 | 8) {
            return Err(Refusal::BadParameter);
        }
        let c = self.capability(a)?;
        c.need(STORE)?;
        c.reach(width)?;
        let (at, width) = (self.offset(c.address), width as usize);
        self.data[at..at + width].copy_from_slice(&value.to_le_bytes()[..width]);
        self.untag(at, width);
        Ok(0)
    }

    fn fetch(&mut self, a: usize, b: usize) -> Result<u64, Refusal> {
        let c = self.capability(b)?;
        c.need(LOAD_CAP)?;
        if c.address % 8 != 0 {
            return Err(Refusal::Misaligned);
        }
        c.reach(8)?;
        let granule = self.offset(c.address) / 8;
        let word = self.word(granule);
        let tag = self.tags[granule] && !self.is_condemned(word);
        self.slots[a] = Slot { word, tag };
        Ok(tag.into())
    }

    fn put(&mut self, a: usize, b: usize) -> Result<u64, Refusal> {
        let c = self.capability(a)?;
        let Slot { word, tag } = self.slots[b];
        c.need(STORE_CAP)?;
        if tag && !F::is_global(word) {
            c.need(STORE_LOCAL)?;
        }
        if c.address % 8 != 0 {
            return Err(Refusal::Misaligned);
        }
        c.reach(8)?;
        let at = self.offset(c.address);
        self.data[at..at + 8].copy_from_slice(&word.to_le_bytes());
        self.tags[at / 8] = tag;
        Ok(0)
    }

    fn copy(&mut self, a: usize, b: usize, length: u64) -> Result<u64, Refusal> {
        let to = self.capability(a)?;
        let from = self.capability(b)?;
        to.need(STORE)?;
        from.need(LOAD)?;
        if length == 0 {
            return Ok(0);
        }
        to.reach(length)?;
        from.reach(length)?;
        let (target, source) = (self.offset(to.address), self.offset(from.address));
        let length = length as usize;

        // The target granules that get a capability, found before any change.
        let mut carried = Vec::new();
        if target % 8 == source % 8 && from.rights & LOAD_CAP != 0 && to.rights & STORE_CAP != 0 {
            let local = to.rights & STORE_LOCAL != 0;
            let (first, past) = (source.div_ceil(8), (source + length) / 8);
            for granule in first..past {
                if self.tags[granule] {
                    let word = self.word(granule);
                    if (local || F::is_global(word)) && !self.is_condemned(word) {
                        carried.push(target.div_ceil(8) + (granule - first));
                    }
                }
            }
        }
        self.data.copy_within(source..source + length, target);
        self.untag(target, length);
        for &granule in &carried {
            self.tags[granule] = true;
        }
        Ok(carried.len() as u64)
    }

    fn open(&mut self) -> Result<u64, Refusal> {
        if self.cursor.is_some() {
            return Err(Refusal::SweepOpen);
        }
        let mut count = 0;
        for block in &mut self.blocks {
            if block.state == State::Freed {
                block.state = State::Condemned;
                count += 1;
            }
        }
        for i in 0..self.slots.len() {
            if self.slots[i].tag && self.is_condemned(self.slots[i].word) {
                self.slots[i].tag = false;
            }
        }
        self.cursor = Some(0);
        Ok(count)
    }

    fn advance(&mut self, count: u64) -> Result<u64, Refusal> {
        let cursor = self.cursor.ok_or(Refusal::SweepShut)?;
        let count = (count as usize).min(self.usable - cursor);
        for granule in cursor..cursor + count {
            if self.tags[granule] && self.is_condemned(self.word(granule)) {
                self.tags[granule] = false;
            }
        }
        self.cursor = Some(cursor + count);
        Ok(count as u64)
    }

    fn close(&mut self) -> Result<u64, Refusal> {
        let cursor = self.cursor.ok_or(Refusal::SweepShut)?;
        if cursor < self.usable {
            return Err(Refusal::SweepUnfinished);
        }
        let mut bytes = 0;
        self.blocks.retain(|b| {
            let condemned = b.state == State::Condemned;
            if condemned {
                bytes += b.end - b.start;
            }
            !condemned
        });
        self.cursor = None;
        Ok(bytes)
    }

    fn whose(&self, a: usize) -> Result<u64, Refusal> {
        let c = self.capability(a)?;
        Ok(self.blocks[self.block_of(c.base)].serial)
    }

    fn tally(&self) -> u64 {
        self.blocks.iter().map(|b| b.end - b.start).sum()
    }
}

// ---- traces ----

/// Where each field begins, and the end of the last.
const FIELDS: [usize; 6] = [0, 2, 5, 8, 20, 41];
const A: usize = 1;
const B: usize = 2;
const P: usize = 3;
const Q: usize = 4;

/// For each code, whether it needs a, b, P and Q.
const NEEDS: [[bool; 4]; 16] = {
    const O: bool = false;
    const I: bool = true;
    [
        [O, O, O, O],
        [I, O, I, O],
        [I, O, O, O],
        [I, I, I, O],
        [I, I, I, I],
        [I, I, I, O],
        [I, O, I, O],
        [I, O, I, I],
        [I, I, O, O],
        [I, I, O, O],
        [I, I, I, O],
        [O, O, O, O],
        [O, O, I, O],
        [O, O, O, O],
        [I, O, O, O],
        [O, O, O, O],
    ]
};

/// A refusal with its answer.
type Refused = (Refusal, u64);

fn at_field(refusal: Refusal, field: usize) -> Refused {
    (refusal, FIELDS[field] as u64 + 1)
}

#[derive(Clone, Copy)]
enum Field {
    Blank,
    Number(u64),
    Huge, // above 64 bits
}

/// The field in some columns, or nothing if its form is bad.
fn field(columns: &[u8]) -> Option<Field> {
    let Some(first) = columns.iter().position(|&c| c != b' ') else {
        return Some(Field::Blank);
    };
    let digits = &columns[first..];
    if digits[0] == b'0' && digits.len() > 1 {
        return None;
    }
    let mut value = Some(0u64);
    for &c in digits {
        if !c.is_ascii_digit() {
            return None;
        }
        value = value.and_then(|v| v.checked_mul(10)?.checked_add(u64::from(c - b'0')));
    }
    Some(value.map_or(Field::Huge, Field::Number))
}

/// The five fields of a line, checked for refusals 2, 3 and 4.
fn fields(line: &[u8], p_limit: u64, q_limit: u64) -> Result<[Option<u64>; 5], Refused> {
    if line.len() != LINE_LENGTH {
        return Err((Refusal::LineLength, line.len() as u64));
    }
    let mut read = [Field::Blank; 5];
    for i in 0..5 {
        let columns = &line[FIELDS[i]..FIELDS[i + 1]];
        read[i] = field(columns).ok_or(at_field(Refusal::FieldForm, i))?;
    }
    let limits = [U32, U32, U32, p_limit, q_limit];
    let mut numbers = [None; 5];
    for i in 0..5 {
        numbers[i] = match read[i] {
            Field::Blank => None,
            Field::Number(n) if n <= limits[i] => Some(n),
            _ => return Err(at_field(Refusal::NumberTooLarge, i)),
        };
    }
    Ok(numbers)
}

/// Refusals 6 and 7, for the fields from a to Q.
fn check_needs(numbers: &[Option<u64>; 5], needs: &[bool; 4]) -> Result<(), Refused> {
    for i in 0..4 {
        if needs[i] && numbers[i + 1].is_none() {
            return Err(at_field(Refusal::FieldMissing, i + 1));
        }
    }
    for i in 0..4 {
        if !needs[i] && numbers[i + 1].is_some() {
            return Err(at_field(Refusal::FieldUnneeded, i + 1));
        }
    }
    Ok(())
}

struct Heading {
    format: u64,
    count: u64,
    first: u64,
}

fn heading(line: &[u8]) -> Result<Heading, Refused> {
    let numbers = fields(line, GRANULES, U32)?;
    for i in [0, A] {
        if numbers[i].is_some_and(|n| n != 1 && n != 2) {
            return Err(at_field(Refusal::NotListed, i));
        }
    }
    let format = numbers[0].ok_or(at_field(Refusal::FieldMissing, 0))?;
    check_needs(&numbers, &[true, false, true, true])?;
    Ok(Heading { format, count: numbers[P].unwrap_or(0), first: numbers[Q].unwrap_or(0) })
}

fn call(line: &[u8]) -> Result<Call, Refused> {
    let numbers = fields(line, U32, u64::MAX)?;
    if numbers[0].is_some_and(|code| !(1..=15).contains(&code)) {
        return Err(at_field(Refusal::NotListed, 0));
    }
    let code = numbers[0].ok_or(at_field(Refusal::FieldMissing, 0))?;
    check_needs(&numbers, &NEEDS[code as usize])?;
    let number = |i: usize| numbers[i].unwrap_or(0);
    Ok(Call { code, a: number(A), b: number(B), p: number(P), q: number(Q) })
}

fn put_number(columns: &mut [u8], mut n: u64) {
    for c in columns.iter_mut().rev() {
        *c = b'0' + (n % 10) as u8;
        n /= 10;
        if n == 0 {
            break;
        }
    }
}

fn answer_line(out: &mut Vec<u8>, number: u64, result: Result<u64, Refused>) {
    let mut line = [b' '; 31];
    let (refusal, answer) = match result {
        Ok(answer) => (0, answer),
        Err((refusal, answer)) => (refusal as u64, answer),
    };
    put_number(&mut line[0..6], number);
    put_number(&mut line[6..9], refusal);
    put_number(&mut line[9..30], answer);
    line[30] = b'\n';
    out.extend_from_slice(&line);
}

fn run<'a, F: Format>(
    heading: &Heading,
    lines: impl Iterator<Item = &'a [u8]>,
    out: &mut Vec<u8>,
) {
    let mut memory = Memory::<F>::start(heading.count, heading.first, 1);
    answer_line(out, 1, Ok(memory.usable as u64));
    for (line, number) in lines.zip(2..) {
        if line.first() == Some(&b'*') {
            out.extend_from_slice(line);
            out.push(b'\n');
        } else {
            let result = call(line).and_then(|c| memory.call(&c).map_err(|r| (r, 0)));
            answer_line(out, number, result);
        }
    }
}

fn trace(input: &[u8]) -> Vec<u8> {
    let mut out = Vec::with_capacity(INPUT_LIMIT);
    if input.len() > INPUT_LIMIT {
        answer_line(&mut out, 0, Err((Refusal::InputTooLong, 0)));
        return out;
    }
    let mut lines = input.strip_suffix(b"\n").unwrap_or(input).split(|&c| c == b'\n');
    match heading(lines.next().unwrap_or(&[])) {
        Ok(h) if h.format == 1 => run::<Compact>(&h, lines, &mut out),
        Ok(h) => run::<Exact>(&h, lines, &mut out),
        Err(refused) => answer_line(&mut out, 1, Err(refused)),
    }
    out
}

fn main() -> io::Result<()> {
    let mut input = Vec::with_capacity(INPUT_LIMIT + 1);
    io::stdin().lock().read_to_end(&mut input)?;
    io::stdout().lock().write_all(&trace(&input))
}

#[cfg(test)]
mod tests {
    use super::*;

    fn cap(base: u64, top: u64, address: u64) -> Capability {
        Capability { base, top, address, rights: 5 }
    }

    /// A full line from its words; `-` is a blank field.
    fn line(words: &str) -> String {
        let widths = [2, 3, 3, 12, 21];
        let mut words = words.split_whitespace();
        let mut text = String::new();
        for width in widths {
            let word = words.next().unwrap_or("-");
            text += &format!("{:>width$}", if word == "-" { "" } else { word }, width = width);
        }
        text
    }

    /// Runs lines, each given with its refusal and answer.
    fn check(rows: &[(&str, u64, u64)]) {
        let input: String = rows.iter().map(|r| line(r.0) + "\n").collect();
        let mut want = String::new();
        for (i, r) in rows.iter().enumerate() {
            want += &format!("{:>6}{:>3}{:>21}\n", i + 1, r.1, r.2);
        }
        assert_eq!(String::from_utf8(trace(input.as_bytes())).unwrap(), want);
    }

    fn check_text(input: &[u8], want: &[u8]) {
        let got = trace(input);
        assert_eq!(String::from_utf8_lossy(&got), String::from_utf8_lossy(want));
        assert_eq!(got, want);
    }

    #[test]
    fn compact_examples() {
        let word = |e: u64, b: u64, t: u64, a: u64| a | b << 32 | t << 41 | e << 50 | 5 << 54;
        assert_eq!(Compact::write(&cap(64, 72, 64)), Some(word(3, 8, 9, 64)));
        assert_eq!(Compact::write(&cap(0, 4088, 0)), Some(word(3, 0, 511, 0)));
        assert_eq!(Compact::write(&cap(0, 4096, 0)), Some(word(12, 0, 1, 0)));
        assert_eq!(Compact::write(&cap(8, 4104, 8)), None);
        assert_eq!(Compact::write(&cap(1, 512, 1)), Some(word(0, 1, 0, 1)));
        assert_eq!(Compact::write(&cap(1, 512, 512)), Some(word(0, 1, 0, 512)));
        assert_eq!(Compact::write(&cap(1, 512, 0)), None);
        assert_eq!(Compact::write(&cap(1, 512, 513)), None);
        assert_eq!(Compact::write(&cap(1, 513, 1)), None);
        assert_eq!(Compact::read(word(0, 1, 0, 512)), cap(1, 512, 512));
        assert_eq!(Compact::unit(4088), 8);
        assert_eq!(Compact::unit(4089), 16);
        assert_eq!(round_up(4089, 16), 4096);
        assert_eq!(Compact::unit(65_408), 128);
        assert_eq!(Compact::unit(65_409), 256);
        let top = Compact::SPAN;
        assert!(Compact::write(&cap(top - 8, top, top - 8)).is_some());
        assert!(Compact::write(&cap(top - 8, top + 1, top - 8)).is_none());
        assert!(Compact::write(&cap(top - 8, top, U32)).is_some());
    }

    #[test]
    fn exact_examples() {
        assert_eq!(Exact::write(&cap(1, 513, 1)), Some(1 | 512 << 16 | 1 << 32 | 5 << 48));
        assert!(Exact::write(&cap(0, 65_536, 65_535)).is_some());
        assert!(Exact::write(&cap(0, 65_536, 65_536)).is_none());
        assert_eq!(Exact::read(1 | 512 << 16 | 7 << 32 | 5 << 48), cap(1, 513, 7));
    }

    #[test]
    fn rules_example() {
        check(&[("2 1 - 4 0", 0, 4), ("1 0 - 8", 0, 1), ("2 1", 13, 0)]);
    }

    #[test]
    fn a_sweep() {
        // Granule 0 comes to hold base 16, top 24, address 16, rights 63:
        // 16 + 23 * 2^16 + 16 * 2^32 + 63 * 2^48.
        let word = 17_732_992_253_755_408;
        check(&[
            ("2 1 - 8 0", 0, 8),
            ("1 0 - 9", 0, 1),
            ("1 1 - 8", 0, 2),
            ("9 0 1", 0, 0),
            ("6 0 - 8", 0, word),
            ("8 2 0", 0, 1),
            ("14 2", 0, 2),
            ("2 2", 0, 2),
            ("2 1", 18, 0),
            ("15", 0, 24),
            ("3 3 0 8", 0, 0),
            ("10 3 0 8", 0, 1),
            ("11", 0, 1),
            ("11", 23, 0),
            ("14 1", 13, 0),
            ("14 2", 13, 0),
            ("8 4 0", 0, 0),
            ("10 3 0 8", 0, 0),
            ("13", 25, 0),
            ("12 - - 3", 0, 3),
            ("1 5 - 8", 0, 3),
            ("12 - - 4294967295", 0, 5),
            ("13", 0, 8),
            ("13", 24, 0),
            ("12 - - 1", 24, 0),
            ("1 6 - 8", 0, 4),
            ("15", 0, 32),
            ("6 0 - 8", 0, word),
            ("8 7 0", 0, 0),
        ]);
    }

    #[test]
    fn calls_refused() {
        check(&[
            ("2 2 - 2 8190", 0, 2),
            ("1 16 - 0", 11, 0),
            ("1 0 - 0", 12, 0),
            ("1 0 - 65537", 12, 0),
            ("1 0 - 17", 22, 0),
            ("1 0 - 16", 0, 1),
            ("1 1 - 1", 22, 0),
            ("3 1 0 65535", 0, 0),
            ("3 2 0 65536", 17, 0),
            ("6 1 - 1", 0, 0),
            ("6 1 - 2", 16, 0),
            ("6 1 - 3", 12, 0),
            ("8 3 1", 15, 0),
            ("3 1 0 65536", 17, 0),
            ("4 3 0 65521 0", 12, 0),
            ("4 3 0 65519 1", 16, 0),
            ("4 3 0 65521 16", 16, 0),
            ("4 3 0 65521 18446744073709551615", 16, 0),
            ("4 3 0 65521 15", 0, 0),
            ("2 3", 19, 0),
            ("14 3", 0, 1),
            ("5 4 0 64", 12, 0),
            ("5 4 0 47", 0, 0),
            ("5 5 0 31", 0, 0),
            ("9 5 4", 14, 0),
            ("9 5 0", 0, 0),
            ("9 0 4", 0, 0),
            ("5 6 0 0", 0, 0),
            ("6 6 - 1", 14, 0),
            ("10 6 0 0", 14, 0),
            ("10 1 1 0", 0, 0),
            ("2 6", 0, 1),
            ("2 3", 18, 0),
        ]);
    }

    #[test]
    fn copies() {
        // Bytes 0..64; slot 0 at 0, slot 1 at 8, slot 2 at 3, slot 3 at 11.
        check(&[
            ("1 1 - 8 0", 0, 8),
            ("1 0 - 64", 0, 1),
            ("3 1 0 8", 0, 0),
            ("3 2 0 3", 0, 0),
            ("3 3 0 11", 0, 0),
            ("9 0 0", 0, 0),
            ("9 1 0", 0, 0),
            ("10 1 0 15", 0, 1), // granule 1 carried, 15 bytes: granule 2 untagged
            ("8 4 1", 0, 1),
            ("10 1 0 16", 0, 2),
            ("10 3 2 13", 0, 1), // bytes 3..15 to 11..23: granule 1 to granule 2
            ("8 4 1", 0, 0),     // granule 1 got bytes 3..7 and is untagged
            ("10 2 1 8", 0, 0),  // other remainders
            ("8 4 0", 0, 0),
        ]);
    }

    #[test]
    fn lines_refused() {
        check_text(b"", b"     1  2                    0\n");
        check_text(b"\n", b"     1  2                    0\n");
        check_text(&[b'*'; 65_537], b"     0  1                    0\n");
        check_text(&[b'*'; 65_536], b"     1  2                65536\n");
        check(&[("* 1 - 1 0", 3, 1)]);
        check(&[("1 1 - 8193 0", 4, 9)]);
        check(&[("3 1 - 8192 4294967296", 4, 21)]);
        check(&[("3 1 - 1 0", 5, 1)]);
        check(&[("- 3 - 1 0", 5, 3)]);
        check(&[("- 1 1 1 0", 6, 1)]);
        check(&[("1 1 1 1 -", 6, 21)]);
        check(&[("1 1 1 1 1", 7, 6)]);
        check(&[
            ("1 2 - 4 4294967295", 0, 0),
            ("01 0 - 8", 3, 1),
            ("16 00 x", 3, 3),
            ("16 0 - 4294967296 x", 3, 21),
            ("16 0 - 4294967296 18446744073709551616", 4, 9),
            ("16 0 - 1 18446744073709551616", 4, 21),
            ("16 0 - 1 18446744073709551615", 5, 1),
            ("0", 5, 1),
            ("- 1", 6, 1),
            ("1 - 1 - 1", 6, 3),
            ("1 1 1 - 1", 6, 9),
            ("1 1 1 1 1", 7, 6),
            ("1 999 - 1", 11, 0),
            ("1 0 - 1", 22, 0),
            ("11", 0, 0),
            ("12 - - 1", 0, 0),
            ("13", 0, 0),
        ]);
    }

    #[test]
    fn remarks_and_ends() {
        let mut input = line("2 1 - 4 0");
        input += "\n*\n* any \x00\n\n**\r\n";
        input += &line("15");
        check_text(
            input.as_bytes(),
            b"     1  0                    4\n*\n* any \x00\n     4  2                    0\n**\r\n     6  0                    0\n",
        );
    }
}
