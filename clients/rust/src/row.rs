use crate::LiveOption;

/// A row: a load combination of ASCE 7-10 with its load factors.
///
/// ```
/// use frames::{LiveOption, Row};
///
/// let row = Row::from_number(5).unwrap();
/// assert_eq!(row.name(), "2.3.2-4");
/// assert_eq!(row.formula(LiveOption::Full, 1000), "1.2D + 1.2F + 1.0W + L + 0.5(Lr or S or R) + 1.6H + 1.0T");
/// assert_eq!(row.formula(LiveOption::Half, 1250), "1.2D + 1.2F + 1.0W + 0.5L + 0.5(Lr or S or R) + 1.6H + 1.25T");
/// assert_eq!(row.low_term(), Some("0.9Hp"));
/// ```
#[derive(Clone, Copy, Debug, PartialEq, Eq, PartialOrd, Ord, Hash)]
pub struct Row(u8);

impl Row {
    /// Every row, by rising number.
    pub const ALL: [Row; LINES.len()] = {
        let mut rows = [Row(0); LINES.len()];
        let mut at = 0;
        while at < LINES.len() {
            rows[at] = Row(LINES[at].0);
            at += 1;
        }
        rows
    };

    /// The row of a number: 1 to 15 or 21 to 43.
    pub fn from_number(number: u8) -> Option<Row> {
        Row::ALL.into_iter().find(|row| row.0 == number)
    }

    /// The number that an answer gives.
    pub fn number(self) -> u8 {
        self.0
    }

    /// The section and the combination of ASCE 7-10. `2.3.3-1 on 2.3.2-4` is combination 4 of 2.3.2 with flood load by item 1 of
    /// 2.3.3, and `2.3.4-2 on 2.3.2-4` the same combination with ice by item 2 of 2.3.4.
    pub fn name(self) -> &'static str {
        self.line().1
    }

    /// The combination in the notation of ASCE 7-10, with F, H and T, on a sheet with this live option and this straining factor
    /// in thousandths. The live option puts 0.5L for L in combinations 3, 4 and 5 of 2.3.2, with flood or ice too. T is in every
    /// row but 1 and 21. H is the full factor; [`Row::low_term`] is the other one.
    pub fn formula(self, live: LiveOption, straining: u16) -> String {
        let live = match live {
            LiveOption::Full => "L",
            LiveOption::Half => "0.5L",
        };
        let formula = self.line().2.replace("fL", live);
        formula.replace("kT", &format!("{}T", decimal(straining)))
    }

    /// The term of an Hp case in the low set, which stands in place of its full factor. Rows 1 and 21 have no H.
    pub fn low_term(self) -> Option<&'static str> {
        let term = if self.0 <= 15 { "0.9Hp" } else { "0.6Hp" };
        self.line().2.contains('H').then_some(term)
    }

    fn line(self) -> &'static Line {
        let found = LINES.iter().find(|line| line.0 == self.0);
        found.expect("a row is made from its number alone")
    }
}

/// Thousandths as a decimal number, with one decimal place at least.
fn decimal(thousandths: u16) -> String {
    let number = format!("{}.{:03}", thousandths / 1000, thousandths % 1000);
    let shorter = number.trim_end_matches('0');
    match shorter.ends_with('.') {
        true => format!("{shorter}0"),
        false => shorter.into(),
    }
}

/// Number, name and formula. `fL` is L or 0.5L by the live option, and k is the straining factor.
type Line = (u8, &'static str, &'static str);

#[rustfmt::skip]
const LINES: [Line; 38] = [
    (1, "2.3.2-1", "1.4D + 1.4F"),
    (2, "2.3.2-2", "1.2D + 1.2F + 1.6L + 0.5(Lr or S or R) + 1.6H + kT"),
    (3, "2.3.2-3 with L", "1.2D + 1.2F + 1.6(Lr or S or R) + fL + 1.6H + kT"),
    (4, "2.3.2-3 with W", "1.2D + 1.2F + 1.6(Lr or S or R) + 0.5W + 1.6H + kT"),
    (5, "2.3.2-4", "1.2D + 1.2F + 1.0W + fL + 0.5(Lr or S or R) + 1.6H + kT"),
    (6, "2.3.2-5", "1.2D + 1.2F + 1.0E + fL + 0.2S + 1.6H + kT"),
    (7, "2.3.2-6", "0.9D + 1.0W + 1.6H + kT"),
    (8, "2.3.2-7", "0.9D + 0.9F + 1.0E + 1.6H + kT"),
    (9, "2.3.3-1 on 2.3.2-4", "1.2D + 1.2F + 1.0W + 2.0Fa + fL + 0.5(Lr or S or R) + 1.6H + kT"),
    (10, "2.3.3-1 on 2.3.2-6", "0.9D + 1.0W + 2.0Fa + 1.6H + kT"),
    (11, "2.3.3-2 on 2.3.2-4", "1.2D + 1.2F + 0.5W + 1.0Fa + fL + 0.5(Lr or S or R) + 1.6H + kT"),
    (12, "2.3.3-2 on 2.3.2-6", "0.9D + 0.5W + 1.0Fa + 1.6H + kT"),
    (13, "2.3.4-1 on 2.3.2-2", "1.2D + 1.2F + 1.6L + 0.2Di + 0.5S + 1.6H + kT"),
    (14, "2.3.4-2 on 2.3.2-4", "1.2D + 1.2F + Di + Wi + fL + 0.5S + 1.6H + kT"),
    (15, "2.3.4-3 on 2.3.2-6", "0.9D + Di + Wi + 1.6H + kT"),
    (21, "2.4.1-1", "D + F"),
    (22, "2.4.1-2", "D + F + L + H + kT"),
    (23, "2.4.1-3", "D + F + (Lr or S or R) + H + kT"),
    (24, "2.4.1-4", "D + F + 0.75L + 0.75(Lr or S or R) + H + kT"),
    (25, "2.4.1-5 with W", "D + F + 0.6W + H + kT"),
    (26, "2.4.1-5 with E", "D + F + 0.7E + H + kT"),
    (27, "2.4.1-6a", "D + F + 0.75L + 0.75(0.6W) + 0.75(Lr or S or R) + H + kT"),
    (28, "2.4.1-6b", "D + F + 0.75L + 0.75(0.7E) + 0.75S + H + kT"),
    (29, "2.4.1-7", "0.6D + 0.6W + H + kT"),
    (30, "2.4.1-8", "0.6D + 0.6F + 0.7E + H + kT"),
    (31, "2.4.2-1 on 2.4.1-5 with W", "D + F + 0.6W + 1.5Fa + H + kT"),
    (32, "2.4.2-1 on 2.4.1-5 with E", "D + F + 1.5Fa + H + kT"),
    (33, "2.4.2-1 on 2.4.1-6a", "D + F + 0.75L + 0.75(0.6W) + 0.75(Lr or S or R) + 1.5Fa + H + kT"),
    (34, "2.4.2-1 on 2.4.1-6b", "D + F + 0.75L + 0.75S + 1.5Fa + H + kT"),
    (35, "2.4.2-1 on 2.4.1-7", "0.6D + 0.6W + 1.5Fa + H + kT"),
    (36, "2.4.2-2 on 2.4.1-5 with W", "D + F + 0.6W + 0.75Fa + H + kT"),
    (37, "2.4.2-2 on 2.4.1-5 with E", "D + F + 0.75Fa + H + kT"),
    (38, "2.4.2-2 on 2.4.1-6a", "D + F + 0.75L + 0.75(0.6W) + 0.75(Lr or S or R) + 0.75Fa + H + kT"),
    (39, "2.4.2-2 on 2.4.1-6b", "D + F + 0.75L + 0.75S + 0.75Fa + H + kT"),
    (40, "2.4.2-2 on 2.4.1-7", "0.6D + 0.6W + 0.75Fa + H + kT"),
    (41, "2.4.3-1 on 2.4.1-2", "D + F + L + 0.7Di + H + kT"),
    (42, "2.4.3-2 on 2.4.1-3", "D + F + 0.7Di + 0.7Wi + S + H + kT"),
    (43, "2.4.3-3 on 2.4.1-7", "0.6D + 0.7Di + 0.7Wi + H + kT"),
];
