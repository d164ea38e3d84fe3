//! The compiled counts program compared with the plain one (rules 10.1 to 10.8), on texts whose answers are
//! known and on many whole and damaged texts from a fixed seed. `CAVZEMIL_COUNTS` may name the program; else
//! it is looked for at `target/bin/counts` in the repository's root.

use cavzemil_plain::counts_program;
use cavzemil_plain::random::Random;
use cavzemil_testing::{draw, texts};
use std::env;
use std::io::Write;
use std::path::{Path, PathBuf};
use std::process::{Command, Stdio};

/// The compiled program.
fn program() -> PathBuf {
    let beside = Path::new(env!("CARGO_MANIFEST_DIR")).join("../target/bin/counts");
    let program = env::var_os("CAVZEMIL_COUNTS").map_or(beside, PathBuf::from);
    assert!(
        program.is_file(),
        "there is no counts program at {}; build it there, or let CAVZEMIL_COUNTS name it",
        program.display()
    );
    program
}

/// What the compiled program writes for a text. It may stop reading a text that is too long, so that
/// the rest can't be handed over.
fn run(program: &Path, text: &[u8]) -> Vec<u8> {
    let mut child = Command::new(program)
        .stdin(Stdio::piped())
        .stdout(Stdio::piped())
        .spawn()
        .expect("the counts program starts");
    let mut stdin = child.stdin.take().expect("standard input is a pipe");
    let handed = stdin.write_all(text);
    assert!(handed.is_ok() || text.len() > 65_536, "the program left a text unread: {handed:?}");
    drop(stdin);
    let output = child.wait_with_output().expect("the counts program ends");
    assert!(output.status.code().is_some(), "the counts program was broken off: {}", output.status);
    output.stdout
}

/// The beginning of a text, fit to be printed.
fn beginning(text: &[u8]) -> String {
    format!("{:?} ({} bytes)", String::from_utf8_lossy(&text[..text.len().min(200)]), text.len())
}

/// Compares both programs on a text and fails with the smallest text found where they differ.
fn compare(program: &Path, text: &[u8]) {
    let differs = |text: &[u8]| run(program, text) != counts_program(text);
    if differs(text) {
        let smallest = shrink(text.to_vec(), differs);
        let expected = beginning(&counts_program(&smallest));
        let found = beginning(&run(program, &smallest));
        panic!("\ntext {}\n  expected: {expected}\n  found:    {found}\n", beginning(&smallest));
    }
}

/// Leaves out ever smaller parts of a text as long as it still differs and patience lasts.
fn shrink(mut text: Vec<u8>, differs: impl Fn(&[u8]) -> bool) -> Vec<u8> {
    let mut patience = 3_000;
    let mut part = text.len() / 2;
    while part > 0 {
        let mut start = 0;
        while start + part <= text.len() && patience > 0 {
            patience -= 1;
            let shorter = [&text[..start], &text[start + part..]].concat();
            if differs(&shorter) {
                text = shorter;
            } else {
                start += part;
            }
        }
        part /= 2;
    }
    text
}

/// A whole text of an admitted screen and so many P lines.
fn whole_text(random: &mut Random, patches: u32) -> Vec<u8> {
    let s = draw::screen(random);
    let mut text = format!("S\t{}\t{}\t{}\t{}\t{}\n", s.a, s.b, s.n, s.k, s.g);
    for _ in 0..patches {
        let name = random.one_of(&["demichel", "kueppers"]);
        let [c, m, y] = draw::inks(random);
        text.push_str(&format!("P\t{name}\t{c}\t{m}\t{y}\n"));
    }
    text.into_bytes()
}

/// Damages a text at one place: a byte or field replaced, left out or put in, or the rest cut off.
fn damage(random: &mut Random, text: &mut Vec<u8>) {
    let fields: [&[u8]; 14] = [
        b"\t", b"\n", b"\t\t", b"\n\n", b"\r\n", b"0", b"00", b"256", b"65536", b"100000", b"P", b"S", b" ",
        b"-1",
    ];
    let any = [random.byte()];
    let field = if random.once_in(3) { &any } else { random.one_of(&fields) };
    let place = random.between(0, text.len() as u32) as usize;
    let next = text.len().min(place + 1);
    match random.between(0, 4) {
        0 => text.truncate(place),
        1 => drop(text.drain(place..next)),
        2 => drop(text.splice(place..next, field.iter().copied())),
        _ => drop(text.splice(place..place, field.iter().copied())),
    }
}

/// Replaces one of the numbers of the S line by one at or beside a limit.
fn spoil_screen(random: &mut Random, text: &[u8]) -> Vec<u8> {
    let limits = ["0", "1", "2", "16", "17", "63", "64", "65", "4095", "4096", "4097", "99999"];
    let text = String::from_utf8_lossy(text);
    let (first, rest) = text.split_once('\n').expect("a whole text has lines");
    let mut fields: Vec<&str> = first.split('\t').collect();
    let place = random.between(1, 5) as usize;
    fields[place] = random.one_of(&limits);
    format!("{}\n{rest}", fields.join("\t")).into_bytes()
}

#[test]
fn worked_texts() {
    let program = program();
    for (text, answer) in texts::marks() {
        compare(&program, text.as_bytes());
        assert_eq!(String::from_utf8_lossy(&run(&program, text.as_bytes())), answer);
    }
}

#[test]
fn whole_and_damaged_texts() {
    let program = program();
    let mut random = Random::new(61);
    for round in 0..2_000 {
        let any = random.between(1, 256);
        let patches = random.one_of(&[1, 2, 3, 9, any]);
        let mut text = whole_text(&mut random, patches);
        if round % 4 == 1 {
            text = spoil_screen(&mut random, &text);
        }
        if round % 4 >= 2 {
            (0..random.between(1, 3)).for_each(|_| damage(&mut random, &mut text));
        }
        compare(&program, &text);
    }
}

#[test]
fn texts_with_many_lines() {
    let program = program();
    let mut random = Random::new(62);
    for patches in [0, 1, 254, 255, 256, 257, 258, 300, 2_500] {
        let mut text = whole_text(&mut random, patches);
        compare(&program, &text);
        text.pop();
        compare(&program, &text);
        text.extend(b"\n\n");
        compare(&program, &text);
    }
}

#[test]
fn texts_about_as_long_as_allowed() {
    let program = program();
    let mut random = Random::new(63);
    for length in [65_535, 65_536, 65_537, 70_000, 200_000] {
        for patches in [1, 200, 256, 257, 4_000] {
            let mut text = whole_text(&mut random, patches);
            for filling in [b'\n', b'0', 0] {
                text.resize(length, filling);
                compare(&program, &text);
            }
        }
        compare(&program, &vec![b'S'; length]);
    }
}
