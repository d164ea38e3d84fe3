//! Lent memory between guards.

use crate::case::Mismatch;
use std::fmt::Debug;

/// The places of each guard; an odd number, so that lent bytes begin at odd addresses too.
const GUARD: usize = 61;

/// A run of memory to be lent, with a guard before and one after it.
#[derive(Clone)]
pub struct Guarded<T> {
    memory: Vec<T>,
}

impl<T: Copy + Debug + PartialEq> Guarded<T> {
    /// Memory with this content between guards of one value.
    pub fn new(content: &[T], guard: T) -> Guarded<T> {
        let mut memory = vec![guard; GUARD];
        memory.extend_from_slice(content);
        memory.resize(content.len() + 2 * GUARD, guard);
        Guarded { memory }
    }

    /// The content, to be read.
    pub fn lent(&self) -> &[T] {
        &self.memory[GUARD..self.memory.len() - GUARD]
    }

    /// The content, to be written.
    pub fn lent_mut(&mut self) -> &mut [T] {
        let end = self.memory.len() - GUARD;
        &mut self.memory[GUARD..end]
    }

    /// The same memory with every place turned into another value.
    pub fn map<U>(&self, turn: impl Fn(T) -> U) -> Guarded<U> {
        Guarded { memory: self.memory.iter().map(|value| turn(*value)).collect() }
    }

    /// The first place, guards included, at which memory differs from what is expected.
    pub fn mismatch(&self, found: &Guarded<T>, name: &str) -> Option<Mismatch> {
        let place = (0..self.memory.len()).find(|place| self.memory[*place] != found.memory[*place])?;
        let words = |memory: &[T]| format!("{:?} in {}", memory[place], self.place_words(place, name));
        Some(Mismatch { expected: words(&self.memory), found: words(&found.memory) })
    }

    /// A place of the memory in plain words.
    fn place_words(&self, place: usize, name: &str) -> String {
        if place < GUARD {
            format!("the guard {} places before the {name}", GUARD - place)
        } else if place >= self.memory.len() - GUARD {
            format!("the guard {} places beyond the {name}", place + GUARD + 1 - self.memory.len())
        } else {
            format!("place {} of the {name}", place - GUARD)
        }
    }
}

/// Bytes to be written over: a pattern of values that no cell has, so that a place left out shows.
pub fn blank(length: usize) -> Guarded<u8> {
    let pattern: Vec<u8> = (0..length).map(|place| 100 + (place % 101) as u8).collect();
    Guarded::new(&pattern, 231)
}
