//! Texts of the counts program with what it writes for them (rules 10.1 to 10.8).

/// The text of rule 12.8.
const WORKED: &str = "S\t4\t7\t105\t2\t0\nP\tdemichel\t128\t128\t0\nP\tkueppers\t128\t128\t0\n";

/// An S line of the stated form with an admitted screen.
const S: &str = "S\t4\t7\t105\t2\t0\n";

/// A P line of the stated form, and its C line by the screen above.
const P: &str = "P\tkueppers\t128\t128\t0\n";
const C: &str = "C\t0\t0\t0\t53\t0\t0\t0\t52\n";

/// The worked text, and texts whose first bad line is known.
pub fn marks() -> Vec<(String, String)> {
    let mut marks = vec![
        (WORKED.into(), "C\t26\t26\t0\t27\t0\t0\t0\t26\nC\t0\t0\t0\t53\t0\t0\t0\t52\n".into()),
        (S.to_owned() + &P.repeat(256), C.repeat(256)),
    ];
    marks.extend(whole_texts().into_iter().map(|(text, line, refusal)| (text, bad(line, refusal))));
    marks.extend(first_lines().into_iter().map(|(line, refusal)| (line.to_owned() + P, bad(1, refusal))));
    marks.extend(patch_lines().into_iter().map(|line| (S.to_owned() + P + line + P, bad(3, 10))));
    marks
}

/// The E line of a bad line.
fn bad(line: u32, refusal: u32) -> String {
    format!("E\t{line}\t{refusal}\n")
}

/// Texts that are too long, or in which a line is missing, one too many, or without its end.
fn whole_texts() -> Vec<(String, u32, u32)> {
    let s = S.to_owned();
    vec![
        ("".into(), 1, 10),
        ("\n".into(), 1, 10),
        (S.trim_end().into(), 1, 10),
        (S.into(), 2, 10),
        (s.clone() + "\n", 2, 10),
        (s.clone() + P.trim_end(), 2, 10),
        ("S\t4\t8\t105\t2\t0\nx\n".into(), 1, 1),
        (s.clone() + P + "\n", 3, 10),
        (s.clone() + P + P.trim_end(), 3, 10),
        (s.clone() + &P.repeat(257), 258, 10),
        (s.clone() + &P.repeat(256) + "P", 258, 10),
        (s.clone() + &P.repeat(256) + "\n", 258, 10),
        (s.clone() + &P.repeat(255) + P.trim_end(), 257, 10),
        (s.clone() + &"x".repeat(65_536 - s.len()), 2, 10),
        (s.clone() + &"x".repeat(65_537 - s.len()), 0, 10),
        ("x".repeat(65_536), 1, 10),
        ("x".repeat(65_537), 0, 10),
    ]
}

/// S lines that are refused, by their form before their screen (rule 10.8).
fn first_lines() -> Vec<(&'static str, u32)> {
    vec![
        ("S\t4\t8\t105\t2\t0\n", 1),
        ("S\t4\t7\t0\t2\t0\n", 2),
        ("S\t4\t7\t4097\t2\t0\n", 2),
        ("S\t4\t7\t5\t6\t0\n", 3),
        ("S\t4\t7\t70\t2\t70\n", 4),
        ("S\t99999\t99999\t99999\t99999\t99999\n", 1),
        ("S\t4\t7\t105\t2\t100000\n", 10),
        ("S\t4\t8\t105\t2\t00\n", 10),
        ("S\t04\t7\t105\t2\t0\n", 10),
        ("S\t4\t7\t105\t2\n", 10),
        ("S\t4\t7\t105\t2\t0\t0\n", 10),
        ("S\t4\t7\t105\t2\t\n", 10),
        ("S\t4\t7\t105\t2\t0\t\n", 10),
        ("S\t\t4\t7\t105\t2\t0\n", 10),
        ("S\t4\t7\t105\t2\t0\r\n", 10),
        ("S\t4\t7\t105\t2\t+0\n", 10),
        ("S 4\t7\t105\t2\t0\n", 10),
        ("s\t4\t7\t105\t2\t0\n", 10),
        (" S\t4\t7\t105\t2\t0\n", 10),
        (P, 10),
    ]
}

/// Lines that no P line may be.
fn patch_lines() -> Vec<&'static str> {
    vec![
        "P\tdemichel\t256\t0\t0\n",
        "P\tdemichel\t0\t0\t256\n",
        "P\tdemichel\t0\t00\t0\n",
        "P\tdemichel\t0\t-1\t0\n",
        "P\tdemichel\t0\t0\n",
        "P\tdemichel\t0\t0\t0\t0\n",
        "P\tdemichel\t0\t0\t0\t\n",
        "P\tdemichel\t0\t0\t\n",
        "P\tdemichel\t0\t0\t99999\n",
        "P\tdemichel\t0\t0\t000001\n",
        "P\tDemichel\t0\t0\t0\n",
        "P\tkuppers\t0\t0\t0\n",
        "P\t\t0\t0\t0\n",
        "\n",
        S,
    ]
}
