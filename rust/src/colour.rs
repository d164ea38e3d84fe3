//! Ink values and colours.

/// Ink values; 255 is full (rule 4.1). By default there is no ink.
///
/// ```
/// use cavzemil::Inks;
///
/// let inks = Inks::from([51, 102, 204]);
/// assert_eq!(inks, Inks { c: 51, m: 102, y: 204 });
/// assert_eq!(<[u8; 3]>::from(inks), [51, 102, 204]);
/// assert_eq!(Inks::default(), [0, 0, 0].into());
/// ```
#[derive(Clone, Copy, Debug, Default, PartialEq, Eq, PartialOrd, Ord, Hash)]
pub struct Inks {
    /// Cyan.
    pub c: u8,
    /// Magenta.
    pub m: u8,
    /// Yellow.
    pub y: u8,
}

impl From<[u8; 3]> for Inks {
    /// The inks of c, m and y.
    fn from([c, m, y]: [u8; 3]) -> Inks {
        Inks { c, m, y }
    }
}

impl From<Inks> for [u8; 3] {
    /// Its values: c, m and y.
    fn from(inks: Inks) -> [u8; 3] {
        [inks.c, inks.m, inks.y]
    }
}

/// A colour: X, Y, Z, each 0 to 200 where it is a primary's (rule 9.2). By default all three are 0.
///
/// ```
/// use cavzemil::Xyz;
///
/// let colour = Xyz::from([30.0, 20.0, 40.0]);
/// assert_eq!(colour, Xyz { x: 30.0, y: 20.0, z: 40.0 });
/// assert_eq!(<[f64; 3]>::from(colour), [30.0, 20.0, 40.0]);
/// ```
#[derive(Clone, Copy, Debug, Default, PartialEq)]
pub struct Xyz {
    /// X.
    pub x: f64,
    /// Y.
    pub y: f64,
    /// Z.
    pub z: f64,
}

impl From<[f64; 3]> for Xyz {
    /// The colour of X, Y and Z.
    fn from([x, y, z]: [f64; 3]) -> Xyz {
        Xyz { x, y, z }
    }
}

impl From<Xyz> for [f64; 3] {
    /// Its values: X, Y and Z.
    fn from(colour: Xyz) -> [f64; 3] {
        [colour.x, colour.y, colour.z]
    }
}
