//! A program without proofs that carries out the benchmarks' decks, to compare the bench's speed with.
//!
//! It holds the lines, the words and the commands that these decks use. At any other one it says which, and ends with status 1.
//! Program memory, the stack and the data registers are kept as the calculator keeps them: seven bytes or fourteen digits to a
//! register. Each line is decoded from its bytes each time that it is carried out, and each label is searched for.

use std::collections::HashMap;
use std::io::{self, BufWriter, Write};
use std::process::ExitCode;

/// Addresses in memory: the stack, the lowest register of program memory, and the curtain, which is R00. Data registers and
/// program memory are separated here as they are with `size 100`.
const T: usize = 0;
const Z: usize = 1;
const Y: usize = 2;
const X: usize = 3;
const L: usize = 4;
const LOWEST: usize = 0x0C0;
const CURTAIN: usize = 0x19C;
const REGISTERS: usize = 0x200;
/// .END. at the end of a register.
const END: u64 = 0xC0_0020;

const POWERS: [u64; 20] = {
    let mut powers = [1; 20];
    let mut at = 1;
    while at < 20 {
        powers[at] = powers[at - 1] * 10;
        at += 1;
    }
    powers
};
/// Mantissas are whole numbers of ten digits: from ONE on, and below TEN.
const ONE: u64 = POWERS[9];
const TEN: u64 = POWERS[10];

/// Why a line can't be carried out.
#[derive(Clone, Copy, Debug)]
enum Fault {
    AlphaData,
    DataError,
    OutOfRange,
    Nonexistent,
    /// Of a counter that is negative, above zero and below one, or at least 10 to the 10th.
    CounterNotHeld,
    LineNotHeld,
}

/// The number mantissa * 10^(exponent - 9). Zero has the mantissa 0, the exponent 0 and no sign.
#[derive(Clone, Copy)]
struct Decimal {
    negative: bool,
    mantissa: u64,
    exponent: i32,
}

impl Decimal {
    const ZERO: Self = Self { negative: false, mantissa: 0, exponent: 0 };

    /// Of a register: the sign, 0 or 9; ten digits; and the exponent, in three digits as ten's complement.
    fn read(register: u64) -> Result<Self, Fault> {
        let sign = register >> 52;
        if sign != 0 && sign != 9 {
            return Err(Fault::AlphaData);
        }
        // Two digits to a byte, and then four to two bytes.
        let digits = register >> 12 & 0xFF_FFFF_FFFF;
        let twos = digits - 6 * (digits >> 4 & 0x0F_0F0F_0F0F);
        let fours = (twos & 0xFF_00FF_00FF) + 100 * (twos >> 8 & 0x00_00FF_00FF);
        let mantissa = (fours >> 32) * 100_000_000 + (fours >> 16 & 0xFFFF) * 10_000 + (fours & 0xFFFF);
        let exponent = (register >> 8 & 0xF) as i32 * 100 + (register >> 4 & 0xF) as i32 * 10 + (register & 0xF) as i32;
        Ok(Self { negative: sign == 9, mantissa, exponent: if exponent >= 500 { exponent - 1000 } else { exponent } })
    }

    fn register(self) -> u64 {
        let sign = if self.negative { 9 << 52 } else { 0 };
        let high = self.mantissa / 100_000_000;
        let low = self.mantissa % 100_000_000;
        // Four digits to each half, then two to each quarter, and then a digit to each half of a byte.
        let fours = low / 10_000 << 32 | low % 10_000;
        let hundreds = fours * 5243 >> 19 & 0x0000_007F_0000_007F;
        let twos = fours - 100 * hundreds | hundreds << 16;
        let tens = twos * 103 >> 10 & 0x000F_000F_000F_000F;
        let spread = twos + 6 * tens;
        let halves = (spread | spread >> 8) & 0x0000_FFFF_0000_FFFF;
        let digits = (halves | halves >> 16) & 0xFFFF_FFFF | (high + 6 * (high / 10)) << 32;
        sign | digits << 12 | exponent_digits(self.exponent)
    }

    /// A result with its mantissa of ten digits, or of 10^10 where rounding has made it one longer.
    fn result(negative: bool, mantissa: u64, exponent: i32) -> Result<Self, Fault> {
        let (mantissa, exponent) = if mantissa == TEN { (ONE, exponent + 1) } else { (mantissa, exponent) };
        match exponent {
            -99..=99 => Ok(Self { negative, mantissa, exponent }),
            100.. => Err(Fault::OutOfRange),
            _ => Ok(Self::ZERO),
        }
    }

    /// The whole number times 10^unit, rounded to ten digits, half away from zero.
    fn rounded(negative: bool, whole: u64, unit: i32) -> Result<Self, Fault> {
        if whole == 0 {
            return Ok(Self::ZERO);
        }
        let digits = whole.ilog10() as i32 + 1;
        let mantissa = if digits <= 10 {
            whole * POWERS[(10 - digits) as usize]
        } else {
            let power = POWERS[(digits - 10) as usize];
            whole / power + u64::from(whole % power * 2 >= power)
        };
        Self::result(negative, mantissa, unit + digits - 1)
    }

    fn add(self, other: Self) -> Result<Self, Fault> {
        if self.mantissa == 0 {
            return Ok(other);
        }
        let (great, small) = if self.exponent >= other.exponent { (self, other) } else { (other, self) };
        let apart = (great.exponent - small.exponent) as usize;
        if small.mantissa == 0 {
            return Ok(self);
        }
        if apart > 11 {
            return Ok(great);
        }
        // Whole numbers of one unit. If the smaller one has digits below it, cutting the exact result there cannot change
        // how it is rounded: half of the last of ten digits is a whole number of units.
        let alike = great.negative == small.negative;
        let shift = apart.min(9);
        let first = great.mantissa * POWERS[shift];
        let second = match apart - shift {
            0 => small.mantissa,
            cut if alike => small.mantissa / POWERS[cut],
            cut => small.mantissa.div_ceil(POWERS[cut]),
        };
        let unit = great.exponent - 9 - shift as i32;
        if alike {
            Self::rounded(great.negative, first + second, unit)
        } else if first >= second {
            Self::rounded(great.negative, first - second, unit)
        } else {
            Self::rounded(small.negative, second - first, unit)
        }
    }

    fn negated(self) -> Self {
        Self { negative: !self.negative && self.mantissa != 0, ..self }
    }

    fn subtract(self, other: Self) -> Result<Self, Fault> {
        self.add(other.negated())
    }

    fn multiply(self, other: Self) -> Result<Self, Fault> {
        if self.mantissa == 0 || other.mantissa == 0 {
            return Ok(Self::ZERO);
        }
        // The product of 19 or 20 digits in two parts of ten, by halves of five digits.
        const HALF: u64 = 100_000;
        let (a, b) = (self.mantissa / HALF, self.mantissa % HALF);
        let (c, d) = (other.mantissa / HALF, other.mantissa % HALF);
        let middle = a * d + b * c;
        let low = middle % HALF * HALF + b * d;
        let high = a * c + middle / HALF + low / TEN;
        let low = low % TEN;
        let negative = self.negative != other.negative;
        let exponent = self.exponent + other.exponent;
        if high >= ONE {
            Self::result(negative, high + u64::from(low >= TEN / 2), exponent + 1)
        } else {
            Self::result(negative, high * 10 + low / ONE + u64::from(low % ONE >= ONE / 2), exponent)
        }
    }

    fn divide(self, other: Self) -> Result<Self, Fault> {
        if other.mantissa == 0 {
            return Err(Fault::DataError);
        }
        if self.mantissa == 0 {
            return Ok(Self::ZERO);
        }
        let by = other.mantissa;
        let (mut quotient, mut rest) = (self.mantissa * ONE / by, self.mantissa * ONE % by);
        let mut exponent = self.exponent - other.exponent;
        if self.mantissa < by {
            quotient = quotient * 10 + rest * 10 / by;
            rest = rest * 10 % by;
            exponent -= 1;
        }
        Self::result(self.negative != other.negative, quotient + u64::from(rest * 2 >= by), exponent)
    }

    fn root(self) -> Result<Self, Fault> {
        if self.negative {
            return Err(Fault::DataError);
        }
        // The root of a whole number of 19 or 20 digits has ten: about that of the processor, and exactly by its square.
        let odd = self.exponent & 1 != 0;
        let whole = u128::from(self.mantissa) * u128::from(if odd { TEN } else { ONE });
        let square = |root: u64| u128::from(root) * u128::from(root);
        let mut root = (whole as f64).sqrt() as u64;
        while square(root) > whole {
            root -= 1;
        }
        while square(root + 1) <= whole {
            root += 1;
        }
        let up = whole - square(root) > u128::from(root);
        Self::result(false, root + u64::from(up), (self.exponent - i32::from(odd)) / 2)
    }

    fn integer(self) -> Self {
        match self.exponent {
            ..0 => Self::ZERO,
            0..=8 => Self { mantissa: self.mantissa - self.mantissa % POWERS[(9 - self.exponent) as usize], ..self },
            _ => self,
        }
    }

    /// Numbers are in order as their keys are.
    fn key(self) -> i64 {
        let size = if self.mantissa == 0 { 0 } else { i64::from(self.exponent + 100) << 34 | self.mantissa as i64 };
        if self.negative {
            -size
        } else {
            size
        }
    }

    /// What ISG makes of the counter iiiii.fffcc, and whether it is above fff then.
    fn counted(self) -> Result<(Self, bool), Fault> {
        if self.negative || !(0..=9).contains(&self.exponent) {
            return Err(Fault::CounterNotHeld);
        }
        let one = POWERS[(9 - self.exponent) as usize];
        let decimals = self.mantissa % one * 100_000 / one;
        let step = if decimals % 100 == 0 { 1 } else { decimals % 100 };
        let counter = self.mantissa + step * one;
        Ok((Self::rounded(false, counter, self.exponent - 9)?, counter / one > decimals / 100))
    }
}

/// An exponent's three digits.
fn exponent_digits(exponent: i32) -> u64 {
    let digits = if exponent < 0 { exponent + 1000 } else { exponent } as u64;
    digits / 100 << 8 | digits / 10 % 10 << 4 | digits % 10
}

struct Machine {
    memory: [u64; REGISTERS],
    /// The byte of program memory where the next line begins, or nulls before it.
    position: usize,
    lift: bool,
    running: bool,
    /// The positions to return to, the last one at the end.
    returns: [usize; 6],
    pending: usize,
}

impl Machine {
    fn new() -> Self {
        let mut memory = [0; REGISTERS];
        memory[CURTAIN - 1] = END;
        Self { memory, position: 0, lift: true, running: false, returns: [0; 6], pending: 0 }
    }

    /// Writes a program's lines into memory: a null between two numbers, and before .END. as few as let it end a register.
    fn load(&mut self, lines: &[&str]) -> Result<(), String> {
        let (mut bytes, mut is_behind_number) = (Vec::new(), false);
        for line in lines {
            let line = line_bytes(line).ok_or_else(|| format!("the line `{line}` is not held here"))?;
            let is_number = is_of_number(line[0]);
            if is_number && is_behind_number {
                bytes.push(0);
            }
            is_behind_number = is_number;
            bytes.extend(line);
        }
        bytes.resize((bytes.len() + 3).next_multiple_of(7), 0);
        if bytes.len() / 7 > CURTAIN - LOWEST {
            return Err("there is no room for the program".to_owned());
        }
        for (index, seven) in bytes.chunks(7).enumerate() {
            self.memory[CURTAIN - 1 - index] = seven.iter().fold(0, |register, &byte| register << 8 | u64::from(byte));
        }
        self.memory[CURTAIN - bytes.len() / 7] |= END;
        Ok(())
    }

    /// The eight bytes from a position on, the first one leftmost.
    fn bytes(&self, at: usize) -> u64 {
        let register = CURTAIN - 1 - at / 7;
        let skipped = 8 * (at % 7);
        self.memory[register] << 8 << skipped | self.memory[register - 1] >> (48 - skipped)
    }

    /// Returns the position of the line after the null bytes at `at`, and its bytes.
    fn line_from(&self, mut at: usize) -> (usize, u64) {
        let mut bytes = self.bytes(at);
        while bytes >> 56 == 0 {
            at += 1;
            bytes = self.bytes(at);
        }
        (at, bytes)
    }

    /// How many bytes the line, or the null, has that begins so.
    fn length(&self, at: usize, bytes: u64) -> usize {
        let (first, second, third) = parts(bytes);
        match first {
            0x10..=0x1C => (1..16).find(|&more| !is_of_number(self.byte(at + more))).unwrap_or(16),
            0x1D..=0x1F => 2 + usize::from(second & 0xF),
            0x90..=0xBF | 0xCE | 0xCF => 2,
            0xC0..=0xCD if third >= 0xF0 => 3 + usize::from(third & 0xF),
            0xC0..=0xEF => 3,
            0xF0.. => 1 + usize::from(first & 0xF),
            _ => 1,
        }
    }

    fn byte(&self, at: usize) -> u8 {
        (self.bytes(at) >> 56) as u8
    }

    /// The first label of this number from a position on, up to another one or to the end.
    fn label_within(&self, number: u8, mut at: usize, until: usize) -> Option<usize> {
        while at < until {
            let bytes = self.bytes(at);
            let (first, _, third) = parts(bytes);
            match first {
                0x01..=0x0F if first - 1 == number => return Some(at),
                0xC0..=0xCD if third < 0xF0 => return None,
                _ => at += self.length(at, bytes),
            }
        }
        None
    }

    fn label(&self, number: u8, from: usize) -> Result<usize, Fault> {
        let behind = self.label_within(number, from, usize::MAX);
        behind.or_else(|| self.label_within(number, 0, from)).ok_or(Fault::Nonexistent)
    }

    /// Returns the last label with the name of one to seven letters after the first two bytes of the line at `at`.
    fn named_label(&self, at: usize, letters: u8) -> Result<usize, Fault> {
        let name_at = |at| self.bytes(at) >> (64 - 8 * u32::from(letters));
        let name = name_at(at + 2);
        let (mut at, mut found) = (0, None);
        loop {
            let bytes = self.bytes(at);
            if (0xC0..=0xCD).contains(&(bytes >> 56)) {
                match (bytes >> 40) as u8 {
                    ..0xF0 => return found.ok_or(Fault::Nonexistent),
                    third if third == 0xF1 + letters && name_at(at + 4) == name => found = Some(at),
                    _ => {}
                }
            }
            at += self.length(at, bytes);
        }
    }

    fn lift_to(&mut self, register: u64) {
        if self.lift {
            self.memory.copy_within(Z..=X, T);
        }
        self.memory[X] = register;
    }

    /// Returns the number line at `at` as a register, and the position after it.
    fn number(&self, mut at: usize) -> (u64, usize) {
        let (mut register, mut count, mut exponent, mut point) = (0, 0, -1, false);
        for _ in 0..16 {
            match self.byte(at) {
                byte @ 0x10..=0x19 => {
                    let digit = u64::from(byte - 0x10);
                    if digit != 0 || count != 0 {
                        count += 1;
                        register |= digit << (52 - 4 * count);
                        exponent += i32::from(!point);
                    } else if point {
                        exponent -= 1;
                    }
                }
                0x1A => point = true,
                _ => break,
            }
            at += 1;
        }
        (if register == 0 { 0 } else { register | exponent_digits(exponent) }, at)
    }

    fn of_y_and_x(&mut self, result: fn(Decimal, Decimal) -> Result<Decimal, Fault>) -> Result<(), Fault> {
        let x = self.memory[X];
        let result = result(Decimal::read(self.memory[Y])?, Decimal::read(x)?)?;
        self.memory[L] = x;
        self.memory[X] = result.register();
        self.memory[Y] = self.memory[Z];
        self.memory[Z] = self.memory[T];
        Ok(())
    }

    fn of_x(&mut self, result: fn(Decimal) -> Result<Decimal, Fault>) -> Result<(), Fault> {
        let x = self.memory[X];
        self.memory[X] = result(Decimal::read(x)?)?.register();
        self.memory[L] = x;
        Ok(())
    }

    fn skip(&self, at: usize) -> usize {
        let (at, bytes) = self.line_from(at);
        at + self.length(at, bytes)
    }

    /// Where a line leads that only branches or is a label.
    fn branch(&mut self, at: usize, bytes: u64) -> Result<usize, Fault> {
        let (first, second, third) = parts(bytes);
        match first {
            0x01..=0x0F => Ok(at + 1),
            0x1D => self.named_label(at, second & 0xF),
            0xB1..=0xBF => self.label(first - 0xB1, at + 2),
            0xC0 if third >= 0xF0 => Ok(at + self.length(at, bytes)),
            0xE0 => {
                let label = self.label(third, at + 3)?;
                if self.pending == 6 {
                    self.returns.copy_within(1.., 0);
                    self.pending = 5;
                }
                self.returns[self.pending] = at + 3;
                self.pending += 1;
                Ok(label)
            }
            // RTN and .END.
            _ if self.pending == 0 => {
                self.running = false;
                Ok(0)
            }
            _ => {
                self.pending -= 1;
                Ok(self.returns[self.pending])
            }
        }
    }

    /// Carries out the line at the position.
    fn step(&mut self) -> Result<(), Fault> {
        let (at, bytes) = self.line_from(self.position);
        let (first, second, _) = parts(bytes);
        let mut next = at + 1;
        let mut lift = true;
        match first {
            0x01..=0x0F | 0x1D | 0x85 | 0xB1..=0xBF | 0xC0 | 0xE0 => {
                next = self.branch(at, bytes)?;
                lift = self.lift;
            }
            0x10..=0x1C => {
                let (register, behind) = self.number(at);
                self.lift_to(register);
                next = behind;
            }
            0x20..=0x2F => self.lift_to(self.memory[data(first & 0xF)]),
            0x30..=0x3F => self.memory[data(first & 0xF)] = self.memory[X],
            0x40 => self.of_y_and_x(Decimal::add)?,
            0x41 => self.of_y_and_x(Decimal::subtract)?,
            0x42 => self.of_y_and_x(Decimal::multiply)?,
            0x43 => self.of_y_and_x(Decimal::divide)?,
            0x45 => {
                if Decimal::read(self.memory[X])?.key() <= Decimal::read(self.memory[Y])?.key() {
                    next = self.skip(next);
                }
            }
            0x52 => self.of_x(Decimal::root)?,
            0x54 => self.memory[X] = Decimal::read(self.memory[X])?.negated().register(),
            0x68 => self.of_x(|x| Ok(x.integer()))?,
            0x71 => self.memory.swap(X, Y),
            0x75 => self.memory[T..=X].rotate_right(1),
            0x76 => self.lift_to(self.memory[L]),
            0x77 => {
                self.memory[X] = 0;
                lift = false;
            }
            0x83 => {
                self.memory.copy_within(Z..=X, T);
                lift = false;
            }
            0x92 | 0x94 | 0x95 => {
                let result = match first {
                    0x92 => Decimal::add,
                    0x94 => Decimal::multiply,
                    _ => Decimal::divide,
                };
                let register = data(second);
                let number = result(Decimal::read(self.memory[register])?, Decimal::read(self.memory[X])?)?;
                self.memory[register] = number.register();
                next = at + 2;
            }
            0x96 => {
                let register = data(second);
                let (counter, is_above) = Decimal::read(self.memory[register])?.counted()?;
                self.memory[register] = counter.register();
                next = if is_above { self.skip(at + 2) } else { at + 2 };
            }
            _ => return Err(Fault::LineNotHeld),
        }
        self.position = next;
        self.lift = lift;
        Ok(())
    }

    /// Executes at most `limit` lines, and returns how many were executed.
    fn run(&mut self, limit: u64) -> Result<u64, Fault> {
        let mut made = 0;
        while self.running && made < limit {
            self.step()?;
            made += 1;
        }
        Ok(made)
    }
}

/// The first three bytes.
fn parts(bytes: u64) -> (u8, u8, u8) {
    ((bytes >> 56) as u8, (bytes >> 48) as u8, (bytes >> 40) as u8)
}

/// The address of a data register.
fn data(number: u8) -> usize {
    CURTAIN + usize::from(number)
}

fn is_of_number(byte: u8) -> bool {
    (0x10..=0x1C).contains(&byte)
}

/// The bytes of a line's text, in its shortest spelling.
fn line_bytes(text: &str) -> Option<Vec<u8>> {
    if text.starts_with(|first: char| first.is_ascii_digit() || first == '.') {
        return number_bytes(text);
    }
    if let Some((name, operand)) = text.split_once(' ') {
        if let Some(label) = operand.strip_prefix('"') {
            let label = label.strip_suffix('"').filter(|label| (1..=7).contains(&label.len()))?;
            let label = label.bytes().all(|byte| byte.is_ascii_alphanumeric()).then_some(label.as_bytes())?;
            let length = label.len() as u8;
            return match name {
                "LBL" => Some([&[0xC0, 0x00, 0xF1 + length, 0x00], label].concat()),
                "GTO" => Some([&[0x1D, 0xF0 + length], label].concat()),
                _ => None,
            };
        }
        let number = operand.parse().ok().filter(|_: &u8| operand.len() == 2 && operand.as_bytes()[0] != b'+')?;
        return Some(match (name, number) {
            ("LBL", 0..=14) => vec![0x01 + number],
            ("GTO", 0..=14) => vec![0xB1 + number, 0x00],
            ("XEQ", _) => vec![0xE0, 0x00, number],
            ("RCL", 0..=15) => vec![0x20 + number],
            ("STO", 0..=15) => vec![0x30 + number],
            ("ST+", _) => vec![0x92, number],
            ("ST*", _) => vec![0x94, number],
            ("ST/", _) => vec![0x95, number],
            ("ISG", _) => vec![0x96, number],
            _ => return None,
        });
    }
    Some(vec![match text {
        "+" => 0x40,
        "-" => 0x41,
        "*" => 0x42,
        "/" => 0x43,
        "X>Y?" => 0x45,
        "SQRT" => 0x52,
        "CHS" => 0x54,
        "INT" => 0x68,
        "X<>Y" => 0x71,
        "RDN" => 0x75,
        "LASTX" => 0x76,
        "CLX" => 0x77,
        "ENTER^" => 0x83,
        "RTN" => 0x85,
        _ => return None,
    }])
}

/// Of numbers only those of at most ten digits, with a point or without.
fn number_bytes(text: &str) -> Option<Vec<u8>> {
    let points = text.matches('.').count();
    if points > 1 || text.len() - points > 10 || text.len() == points {
        return None;
    }
    text.bytes()
        .map(|character| match character {
            b'0'..=b'9' => Some(0x10 + character - b'0'),
            b'.' => Some(0x1A),
            _ => None,
        })
        .collect()
}

/// A page's words of a source, or why there are none.
fn assemble(page: usize, lines: &[&str]) -> Result<Vec<u16>, String> {
    let mut words = Vec::with_capacity(4096);
    let mut labels = HashMap::new();
    let mut jumps = Vec::new();
    for line in lines {
        let line = line.split_once(';').map_or(*line, |(code, _comment)| code);
        let mut parts = line.split_ascii_whitespace().peekable();
        if let Some(label) = parts.next_if(|part| part.ends_with(':')) {
            if labels.insert(&label[..label.len() - 1], words.len()).is_some() {
                return Err(format!("the label `{label}` stands twice"));
            }
        }
        if let Some(name) = parts.next() {
            let instruction = instruction(name, [parts.next(), parts.next()]).filter(|_| parts.next().is_none());
            match instruction.ok_or_else(|| format!("the word `{}` is not held", line.trim()))? {
                Instruction::Word(word) => words.push(word),
                Instruction::Jump(label) => {
                    jumps.push((words.len(), label));
                    words.extend([0, 0]);
                }
            }
        }
    }
    for (at, label) in jumps {
        let target = labels.get(label).ok_or_else(|| format!("no label `{label}`"))? + (page << 12);
        words[at] = (target as u16 & 0xFF) << 2 | 1;
        words[at + 1] = (target as u16 >> 8) << 2 | 2;
    }
    if words.len() > 4096 {
        return Err("a page has at most 4096 words".to_owned());
    }
    words.resize(4096, 0);
    Ok(words)
}

enum Instruction<'a> {
    Word(u16),
    /// A long jump, of two words, to a label.
    Jump(&'a str),
}

fn instruction<'a>(name: &str, operands: [Option<&'a str>; 2]) -> Option<Instruction<'a>> {
    let word = match (name, operands) {
        ("?NC", [Some("GO"), Some(label)]) => return label.strip_prefix(':').map(Instruction::Jump),
        ("NOP", [None, None]) => 0x000,
        ("RTN", [None, None]) => 0x3E0,
        ("R=", [Some(operand), None]) => pointer(operand)? << 6 | 0x01C,
        ("READ", [Some(operand), None]) => operand.parse::<u16>().ok().filter(|number| (1..16).contains(number))? << 6 | 0x038,
        ("JNC", [Some(operand), None]) => distance(operand)? << 3 | 0x003,
        ("A=A+C", [Some(operand), None]) => 0x142 | field(operand)? << 2,
        ("C=C+1", [Some(operand), None]) => 0x222 | field(operand)? << 2,
        _ => return None,
    };
    Some(Instruction::Word(word))
}

/// The code of a place, 0 to 13.
fn pointer(operand: &str) -> Option<u16> {
    const CODES: [u16; 14] = [14, 12, 8, 0, 1, 2, 5, 10, 4, 9, 3, 6, 13, 11];
    CODES.get(operand.parse::<usize>().ok()?).copied()
}

/// A signed hexadecimal distance in seven bits.
fn distance(operand: &str) -> Option<u16> {
    let number = i16::from_str_radix(operand, 16).ok()?;
    (-64..64).contains(&number).then_some(number as u16 & 0x7F)
}

fn field(name: &str) -> Option<u16> {
    let at = ["@R", "S&X", "R<", "ALL", "P-Q", "XS", "M", "MS"].iter().position(|field| *field == name)?;
    Some(at as u16)
}

/// A deck's lines, and what its commands act on.
struct Bench {
    machine: Machine,
    is_loaded: bool,
    pages: [Option<Vec<u16>>; 16],
}

/// Carries out a command; those that open a block take its lines from the deck.
fn command<'a>(
    bench: &mut Bench,
    line: &str,
    deck: &mut impl Iterator<Item = &'a str>,
    out: &mut impl Write,
) -> Result<(), String> {
    let machine = &mut bench.machine;
    let not_held = || format!("the command `{line}` is not held here");
    let words: Vec<&str> = line.split_ascii_whitespace().collect();
    let written = match words[..] {
        ["program"] if !bench.is_loaded => {
            machine.load(&block(deck)?)?;
            bench.is_loaded = true;
            Ok(())
        }
        ["key", "R/S"] => {
            machine.running = !machine.running;
            Ok(())
        }
        ["run", limit] => {
            let limit = limit.parse().map_err(|_| not_held())?;
            let made = machine.run(limit).map_err(|fault| format!("position {}: {fault:?}", machine.position))?;
            writeln!(out, "ran {made} {}", if machine.running { "Limit" } else { "Idle" })
        }
        ["show", "stack"] => (['T', 'Z', 'Y', 'X', 'L'].iter().zip(machine.memory))
            .try_for_each(|(name, register)| writeln!(out, "{name}={register:014X}")),
        ["show", "pos"] => {
            let position = machine.line_from(machine.position).0;
            writeln!(out, "{} {position:04}", if machine.running { "Run" } else { "Idle" })
        }
        ["show", "ram", address] => {
            let at = usize::from_str_radix(address, 16).ok().filter(|at| address.len() == 3 && (LOWEST..REGISTERS).contains(at));
            let at = at.ok_or_else(not_held)?;
            writeln!(out, "{at:03X}={:014X}", machine.memory[at])
        }
        ["asm", page] => {
            let number = page_number(page).filter(|&number| bench.pages[number].is_none()).ok_or_else(not_held)?;
            bench.pages[number] = Some(assemble(number, &block(deck)?)?);
            Ok(())
        }
        ["unplug", page] => {
            page_number(page).and_then(|number| bench.pages[number].take()).ok_or_else(not_held)?;
            Ok(())
        }
        ["show", "image", page] => {
            let page = page_number(page).and_then(|number| bench.pages[number].as_ref()).ok_or_else(not_held)?;
            page.chunks(16).try_for_each(|words| {
                words.iter().try_for_each(|word| write!(out, "{word:04X}"))?;
                writeln!(out)
            })
        }
        _ => return Err(not_held()),
    };
    written.map_err(|error| error.to_string())
}

fn page_number(page: &str) -> Option<usize> {
    usize::from_str_radix(page, 16).ok().filter(|number| page.len() == 1 && *number >= 4)
}

/// The lines up to the block's end, but for comments.
fn block<'a>(deck: &mut impl Iterator<Item = &'a str>) -> Result<Vec<&'a str>, String> {
    let mut lines = Vec::new();
    for line in deck {
        if line.trim_ascii() == "end" {
            return Ok(lines);
        }
        if !is_skipped(line) {
            lines.push(line);
        }
    }
    Err("the block has no end".to_owned())
}

fn is_skipped(line: &str) -> bool {
    line.starts_with('#') || line.trim_ascii().is_empty()
}

fn answer(path: &str) -> Result<(), String> {
    let text = std::fs::read_to_string(path).map_err(|error| error.to_string())?;
    let mut bench = Bench { machine: Machine::new(), is_loaded: false, pages: Default::default() };
    let mut out = BufWriter::new(io::stdout().lock());
    let mut deck = text.lines();
    while let Some(line) = deck.next() {
        if !is_skipped(line) {
            command(&mut bench, line, &mut deck, &mut out)?;
        }
    }
    out.flush().map_err(|error| error.to_string())
}

fn main() -> ExitCode {
    let Some(path) = std::env::args().nth(1) else {
        eprintln!("plain: it takes a deck's file");
        return ExitCode::from(2);
    };
    match answer(&path) {
        Ok(()) => ExitCode::SUCCESS,
        Err(why) => {
            eprintln!("plain: {why}");
            ExitCode::FAILURE
        }
    }
}
