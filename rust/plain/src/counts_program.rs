//! Rules 10.1 to 10.8: the counts program.

use crate::quantise::counts;
use crate::screen::Screen;
use crate::separation::{Inks, Separation};
use crate::stored::{make_screen, Made};

/// The byte that ends each line.
const END: u8 = 10;

/// The byte between two fields.
const TAB: u8 = 9;

/// A bad line: its number and its refusal.
type BadLine = (usize, u32);

/// What a P line asks for: a separation and ink values.
type Patch = (Separation, Inks);

/// What the program writes for what it reads: a C line for each P line (rule 10.6), or an E line alone
/// (rule 10.7).
pub fn counts_program(input: &[u8]) -> Vec<u8> {
    match judge(input) {
        Ok((screen, patches)) => patches.iter().flat_map(|patch| answer(screen, *patch)).collect(),
        Err((line, refusal)) => format!("E\t{line}\t{refusal}\n").into_bytes(),
    }
}

/// The C line of a patch.
fn answer(screen: Screen, (separation, inks): Patch) -> Vec<u8> {
    let mut line = String::from("C");
    for count in counts(screen.n, separation, inks) {
        line.push_str(&format!("\t{count}"));
    }
    line.push('\n');
    line.into_bytes()
}

/// Judges all lines in order: the screen and the patches, or the first bad line (rules 10.7 and 10.8). A
/// line that is missing is judged as an empty one without its end.
fn judge(input: &[u8]) -> Result<(Screen, Vec<Patch>), BadLine> {
    if input.len() > 65_536 {
        return Err((0, 10));
    }
    let mut lines = input.split_inclusive(|byte| *byte == END);
    let screen = read_screen(lines.next().unwrap_or_default()).map_err(|refusal| (1, refusal))?;
    let mut patches = vec![read_patch(lines.next().unwrap_or_default()).ok_or((2, 10))?];
    for (number, line) in (3..).zip(lines) {
        if number > 257 {
            return Err((number, 10));
        }
        patches.push(read_patch(line).ok_or((number, 10))?);
    }
    Ok((screen, patches))
}

/// The fields of a line, or none where no byte 10 ends it (rule 10.2).
fn fields(line: &[u8]) -> Option<Vec<&[u8]>> {
    match line {
        [text @ .., END] => Some(text.split(|byte| *byte == TAB).collect()),
        _ => None,
    }
}

/// A number: 1 to 5 digits, and no 0 in front of others (rule 10.5).
fn number(field: &[u8]) -> Option<u32> {
    let digits = field.iter().all(u8::is_ascii_digit);
    let leading_zero = field.len() > 1 && field[0] == b'0';
    if field.is_empty() || field.len() > 5 || !digits || leading_zero {
        return None;
    }
    Some(field.iter().fold(0, |value, digit| 10 * value + u32::from(digit - b'0')))
}

/// The screen of line 1, or its refusal: 10 for the form, and only then 1 to 4 (rule 10.8).
fn read_screen(line: &[u8]) -> Result<Screen, u32> {
    match screen_of(line).ok_or(10u32)? {
        Made { refusal: 0, screen } => Ok(screen),
        Made { refusal, .. } => Err(refusal),
    }
}

/// The screen made of the five numbers of a line 1 that has its form (rules 10.3 and 10.6).
fn screen_of(line: &[u8]) -> Option<Made> {
    let [b"S", a, b, n, k, g] = fields(line)?[..] else {
        return None;
    };
    Some(make_screen(number(a)?, number(b)?, number(n)?, number(k)?, number(g)?))
}

/// The patch of a P line that has its form (rule 10.4).
fn read_patch(line: &[u8]) -> Option<Patch> {
    let [b"P", name, c, m, y] = fields(line)?[..] else {
        return None;
    };
    let separation = match name {
        b"demichel" => Separation::Demichel,
        b"kueppers" => Separation::Kueppers,
        _ => return None,
    };
    Some((separation, [ink(c)?, ink(m)?, ink(y)?]))
}

/// An ink value: a number up to 255.
fn ink(field: &[u8]) -> Option<u8> {
    number(field)?.try_into().ok()
}
