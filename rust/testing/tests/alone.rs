//! The plain implementation by itself: the worked examples, finished windows, motifs, jobs, cellular
//! predictions, screens made, replaced and moved, and the counts program's texts.

use cavzemil_plain::{counts_program, weights, Separation};
use cavzemil_testing::texts;

cavzemil_testing::promises!(cavzemil_testing::Plain);

/// The weights of rule 12.3.
#[test]
fn weights_are_the_worked_ones() {
    let weights = weights(Separation::Demichel, [128, 128, 0]);
    assert_eq!(weights, [4_145_280, 4_145_280, 0, 4_177_920, 0, 0, 0, 4_112_895]);
}

#[test]
fn texts_are_answered_as_worked_out() {
    for (text, answer) in texts::marks() {
        let found = counts_program(text.as_bytes());
        assert_eq!(String::from_utf8_lossy(&found), answer, "for {text:?}");
    }
}
