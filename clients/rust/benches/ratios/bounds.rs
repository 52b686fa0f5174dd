//! The fields whose instructions are counted, and how many the library may take for each.

/// A list of fields of one sort, on a sheet with so many filled places.
pub struct Counted {
    /// One tag, or two in turn, or `NAME`.
    pub field: &'static str,
    /// 1 is strength, 2 allowable stress.
    pub method: u8,
    pub places: u8,
    /// The library's instructions a field. The benchmark fails where it takes over a tenth more.
    pub bound: u32,
}

/// Counted is the finding of a name in a file of fields of several tags: what a field of the file takes.
pub const NAME: &str = "name";

/// The bounds are the counts of the library as it is, of a 03, 02 and 04 up to 5 more; they are set here alone.
pub const LISTS: [Counted; 14] = [
    counted("03", 1, 8, 211),
    counted("03", 1, 32, 210),
    counted("02/04", 1, 8, 278),
    counted("02/04", 1, 32, 276),
    counted("06", 1, 8, 1449),
    counted("06", 1, 32, 2220),
    counted("06", 2, 8, 1486),
    counted("06", 2, 32, 2288),
    counted("07", 1, 8, 2778),
    counted("07", 1, 32, 3905),
    counted("07", 2, 8, 2979),
    counted("07", 2, 32, 4161),
    counted("60", 1, 8, 125),
    counted(NAME, 1, 8, 20),
];

const fn counted(field: &'static str, method: u8, places: u8, bound: u32) -> Counted {
    Counted {
        field,
        method,
        places,
        bound,
    }
}
