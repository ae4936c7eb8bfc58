//! The calculator in plain Rust, as far as the timed lines need it: the lines `field`, `put`,
//! `add`, `mul`, `sq`, `inv` and `show` over two extensions.
use crate::extensions::{BabyBearx4, Extension, F17x4, Ring};
use std::fmt::Write;

type Registers<E> = [E; 16];

enum Bank {
    Empty,
    F17x4(Registers<F17x4>),
    BabyBearx4(Registers<BabyBearx4>),
}

/// Why a line isn't carried out.
enum Fault {
    LongLine,
    UnknownCommand,
    WordCount,
    BadRegister,
    BadNumber,
    NoField,
    NoInverse,
}

/// The next word of a line and what follows it, if there is one.
fn next_word(line: &[u8]) -> Option<(&[u8], &[u8])> {
    let start = line.iter().position(|b| *b != b' ')?;
    let rest = &line[start..];
    let end = rest.iter().position(|b| *b == b' ').unwrap_or(rest.len());
    Some((&rest[..end], &rest[end..]))
}

/// The next word of a line that has to have one.
fn word(line: &[u8]) -> Result<(&[u8], &[u8]), Fault> {
    next_word(line).ok_or(Fault::WordCount)
}

/// The words of a line that has so many.
fn words<const N: usize>(line: &[u8]) -> Result<[&[u8]; N], Fault> {
    let mut found = [&line[..0]; N];
    let mut rest = line;
    for place in &mut found {
        (*place, rest) = word(rest)?;
    }
    if next_word(rest).is_some() {
        return Err(Fault::WordCount);
    }
    Ok(found)
}

/// The number that a word of at most so many digits is, up to the greatest one.
fn number(word: &[u8], digits: usize, most: u64) -> Option<u64> {
    if word.is_empty() || word.len() > digits {
        return None;
    }
    let mut value = 0u64;
    for byte in word {
        if !byte.is_ascii_digit() {
            return None;
        }
        value = value.checked_mul(10)?.checked_add((byte - b'0') as u64)?;
    }
    (value <= most).then_some(value)
}

/// The register that a word names.
fn register(word: &[u8]) -> Result<usize, Fault> {
    number(word, 2, 15).map(|r| r as usize).ok_or(Fault::BadRegister)
}

/// The registers that a line of so many words names.
fn registers<const N: usize>(line: &[u8]) -> Result<[usize; N], Fault> {
    let words = words::<N>(line)?;
    let mut registers = [0; N];
    for (register_, word) in registers.iter_mut().zip(words) {
        *register_ = register(word)?;
    }
    Ok(registers)
}

/// Puts a value of four coefficients into a register.
fn put<E: Extension>(bank: &mut Registers<E>, args: &[u8]) -> Result<(), Fault> {
    let (r, rest) = word(args)?;
    let coefficients = words::<4>(rest)?;
    let r = register(r)?;
    let mut numbers = [0; 4];
    for (place, word) in numbers.iter_mut().zip(coefficients) {
        *place = number(word, 20, E::ORDER - 1).ok_or(Fault::BadNumber)?;
    }
    bank[r] = E::of(&numbers);
    Ok(())
}

/// Writes a value's text.
fn write_text<E: Extension>(x: E, output: &mut String) {
    let mut numbers = [0; 4];
    x.write(&mut numbers);
    let mut first = true;
    for (i, c) in numbers.iter().enumerate().filter(|(_, c)| **c != 0) {
        if !first {
            output.push_str(" + ");
        }
        first = false;
        match (i, c) {
            (0, _) => write!(output, "{c}").unwrap(),
            (1, 1) => output.push('X'),
            (1, _) => write!(output, "{c} X").unwrap(),
            (_, 1) => write!(output, "X^{i}").unwrap(),
            (_, _) => write!(output, "{c} X^{i}").unwrap(),
        }
    }
    if first {
        output.push('0');
    }
    output.push('\n');
}

/// Carries out a command on a field's registers.
fn act<E: Extension>(
    command: &[u8],
    bank: &mut Registers<E>,
    args: &[u8],
    output: &mut String,
) -> Result<(), Fault> {
    match command {
        b"put" => put(bank, args)?,
        b"add" => {
            let [r, a, b] = registers(args)?;
            bank[r] = bank[a].add(bank[b]);
        }
        b"mul" => {
            let [r, a, b] = registers(args)?;
            bank[r] = bank[a].mul(bank[b]);
        }
        b"sq" => {
            let [r, a] = registers(args)?;
            bank[r] = bank[a].square();
        }
        b"inv" => {
            let [r, a] = registers(args)?;
            bank[r] = bank[a].try_inverse().ok_or(Fault::NoInverse)?;
        }
        b"show" => {
            let [r] = registers(args)?;
            let mut text = String::new();
            write_text(bank[r], &mut text);
            output.push_str(&text);
        }
        _ => return Err(Fault::UnknownCommand),
    }
    Ok(())
}

/// Carries out a line.
fn step(bank: &mut Bank, line: &[u8], output: &mut String) -> Result<(), Fault> {
    let Some((command, args)) = next_word(line) else {
        return Ok(());
    };
    if command == b"field" {
        let [name] = words(args)?;
        *bank = match name {
            b"f17x4" => Bank::F17x4([F17x4::of(&[0; 4]); 16]),
            b"bbx4" => Bank::BabyBearx4([BabyBearx4::of(&[0; 4]); 16]),
            _ => return Err(Fault::NoField),
        };
        return Ok(());
    }
    match bank {
        Bank::Empty => Err(Fault::NoField),
        Bank::F17x4(registers) => act(command, registers, args, output),
        Bank::BabyBearx4(registers) => act(command, registers, args, output),
    }
}

/// Carries out the lines, each read byte by byte into a buffer, up to the first fault.
fn run_lines(input: &[u8], output: &mut String) -> Result<(), Fault> {
    let mut bank = Bank::Empty;
    let mut line = [0; 256];
    let mut used = 0;
    for byte in input {
        if *byte == b'\n' {
            step(&mut bank, &line[..used], output)?;
            used = 0;
        } else if used == line.len() {
            return Err(Fault::LongLine);
        } else {
            line[used] = *byte;
            used += 1;
        }
    }
    Ok(())
}

/// What the calculator writes for the lines; nothing past the first fault.
#[inline(never)]
pub fn run(input: &[u8]) -> Vec<u8> {
    let mut output = String::new();
    let _ = run_lines(input, &mut output);
    output.into_bytes()
}
