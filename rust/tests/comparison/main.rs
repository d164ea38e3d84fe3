//! The compiled library compared with the plain second implementation: the worked examples, finished windows
//! and motifs, every refusal from both sides of its limit, and many screens (admitted, refused and with false
//! records), lists of replacements, corners, windows, images, plates, primaries (of colorants and of their
//! sets) and jobs drawn from fixed seeds. Lent memory stands between guards and is compared whole, guards
//! included, after every call, refused ones too (rule 11.3). A mismatch is shrunk to the smallest case found and
//! then told in plain words.
//!
//! Run by `cargo test --release`; it takes some ten seconds. Like the plain implementation, it needs a newer
//! compiler than the crate does.

#![allow(clippy::incompatible_msrv)]

mod bills;
mod case;
mod cells;
mod cellular;
mod choose;
mod colours;
mod guarded;
mod images;
mod making;
mod moved;
mod null;
mod plates;
mod rules;
mod screens;
mod subject;
mod values;

cavzemil_testing::promises!(crate::subject::Compiled);
