//! Rules 4.1 to 4.5: separation.

/// Ink values, 255 being full: cyan, magenta, yellow (rule 4.1).
pub type Inks = [u8; 3];

/// How ink values become the weights of the eight colorants.
#[derive(Clone, Copy, Debug, PartialEq, Eq)]
pub enum Separation {
    Demichel,
    Kueppers,
}

/// Which of the inks c, m, y each colorant holds: cyan, magenta, yellow, blue, green, red, black, white
/// (rule 4.2).
const HOLDS: [[bool; 3]; 8] = [
    [true, false, false],
    [false, true, false],
    [false, false, true],
    [true, true, false],
    [true, false, true],
    [false, true, true],
    [true, true, true],
    [false, false, false],
];

impl Separation {
    /// The separation that the C interface gives this number, if there is one (rule 14.3).
    pub fn from_number(number: u32) -> Option<Separation> {
        match number {
            0 => Some(Separation::Demichel),
            1 => Some(Separation::Kueppers),
            _ => None,
        }
    }
}

/// The scale D, to which the eight weights add up (rule 4.5).
pub fn scale(separation: Separation) -> u64 {
    match separation {
        Separation::Demichel => 255 * 255 * 255,
        Separation::Kueppers => 255,
    }
}

/// The eight weights of three ink values.
pub fn weights(separation: Separation, inks: Inks) -> [u64; 8] {
    match separation {
        Separation::Demichel => demichel(inks),
        Separation::Kueppers => kueppers(inks),
    }
}

/// Demichel's weights: a product of three factors, one for each ink (rule 4.3).
fn demichel(inks: Inks) -> [u64; 8] {
    let mut weights = [0; 8];
    for colorant in 0..8 {
        let mut product = 1;
        for ink in 0..3 {
            let value = u64::from(inks[ink]);
            product *= if HOLDS[colorant][ink] { value } else { 255 - value };
        }
        weights[colorant] = product;
    }
    weights
}

/// Kueppers's weights, by the order of the three values; it doesn't matter how equal values are ordered
/// (rule 4.4).
fn kueppers(inks: Inks) -> [u64; 8] {
    let mut order = [0, 1, 2];
    order.sort_by_key(|ink| inks[*ink]);
    let [least, middle, largest] = order;
    let value = |ink: usize| u64::from(inks[ink]);
    let mut weights = [0; 8];
    weights[6] = value(least);
    weights[holder_of(&[middle, largest])] = value(middle) - value(least);
    weights[holder_of(&[largest])] = value(largest) - value(middle);
    weights[7] = 255 - value(largest);
    weights
}

/// The colorant that holds these inks and no other.
fn holder_of(inks: &[usize]) -> usize {
    (0..8)
        .find(|colorant| (0..3).all(|ink| HOLDS[*colorant][ink] == inks.contains(&ink)))
        .expect("every set of inks has its colorant")
}
