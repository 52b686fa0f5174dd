//! Sets of load cases, case k being bit k, and what the effects of a set come to.

/// The cases of a set, rising.
#[inline(always)]
pub fn cases(mut set: u32) -> impl Iterator<Item = usize> {
    std::iter::from_fn(move || {
        if set == 0 {
            return None;
        }
        // The remainder changes nothing: it tells the compiler that no index needs a test.
        let case = set.trailing_zeros() % 32;
        set &= set - 1;
        Some(case as usize)
    })
}

/// The cases of a set whose effect is above 0.
#[inline(always)]
pub fn above(set: u32, effect: impl Fn(usize) -> i64) -> u32 {
    cases(set).fold(0, |above, case| above | u32::from(effect(case) > 0) << case)
}

/// The first case of a set that has the greatest effect, where that is above 0.
#[inline(always)]
pub fn greatest(set: u32, effect: impl Fn(usize) -> i64) -> u32 {
    let (mut most, mut first) = (0, 0);
    for case in cases(set) {
        let effect = effect(case);
        if effect > most {
            (most, first) = (effect, 1 << case);
        }
    }
    first
}

/// Effects of cases any of which may act: the sums of those above 0 and of those below 0, and which cases have them.
#[derive(Clone, Copy)]
pub struct Sums {
    pub above: i64,
    pub below: i64,
    pub cases_above: u32,
    pub cases_below: u32,
}

impl Sums {
    #[inline(always)]
    pub fn of(set: u32, effect: impl Fn(usize) -> i64) -> Sums {
        let (mut total, mut above) = (0, 0);
        let (mut cases_above, mut cases_below) = (0, 0);
        for case in cases(set) {
            let effect = effect(case);
            total += effect;
            above += effect.max(0);
            cases_above |= u32::from(effect > 0) << case;
            cases_below |= u32::from(effect < 0) << case;
        }
        Sums {
            above,
            below: total - above,
            cases_above,
            cases_below,
        }
    }

    /// The same with every effect negated.
    #[inline(always)]
    pub fn opposite(self) -> Sums {
        Sums {
            above: -self.below,
            below: -self.above,
            cases_above: self.cases_below,
            cases_below: self.cases_above,
        }
    }
}

/// An effect and its case in one number, 32 times the effect and 31 less the case: the greater number has the greater effect or,
/// where effects are equal, the earlier case.
#[derive(Clone, Copy, PartialEq, Eq, PartialOrd, Ord)]
pub struct Ranked(i64);

impl Ranked {
    #[inline(always)]
    pub fn effect(self) -> i64 {
        self.0 >> 5
    }

    /// The case as a set, which is empty where the effect is 0.
    #[inline(always)]
    pub fn case(self) -> u32 {
        match self.effect() {
            0 => 0,
            _ => 1 << 31 >> (self.0 & 31),
        }
    }
}

/// Effects of cases one of which may act: the greatest, and the greatest of the negated ones, both at least 0.
#[derive(Clone, Copy)]
pub struct Ends {
    pub up: Ranked,
    down: Ranked,
}

impl Ends {
    #[inline(always)]
    pub fn of(set: u32, effect: impl Fn(usize) -> i64) -> Ends {
        let (mut most, mut least) = (0, 0);
        for case in cases(set) {
            let ranked = effect(case) << 5 | case as i64;
            most = most.max(ranked ^ 31);
            least = least.min(ranked);
        }
        Ends {
            up: Ranked(most),
            down: Ranked(31 - least),
        }
    }

    #[inline(always)]
    pub fn opposite(self) -> Ends {
        Ends {
            up: self.down,
            down: self.up,
        }
    }
}
