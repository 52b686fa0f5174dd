//! Live load on bays, each loaded or empty: the proved library against a loop over every combination.

use std::hint::black_box;

use frames::bytes::{answer, ANSWER};
use frames::{Answer, Capacities, Component, Effects, Field, Kind, Settings, Sheet};

use crate::by_hand::rows::ROWS;
use crate::lists::{self, Random};
use crate::measure::{head, interleave, lane, row, time, Clock};

const LOOKS: usize = 1_000;
const CAPACITIES: [u16; 3] = [5_000, 2_000, 1_000];

/// Dead load, two winds and a live load on each bay, with so many effects each.
struct Bays<const C: usize> {
    dead: [i64; C],
    winds: [[i64; C]; 2],
    live: Vec<[i64; C]>,
}

pub fn report() {
    println!("### Bays loaded or empty: against a loop over every combination\n");
    println!("By hand is here a loop over the rows, each wind or none, and each set of loaded bays, where the row has a factor.");
    println!("It gives the numbers alone; the library names a combination too. A look of the library is one in a list of {LOOKS}.\n");
    head(&[
        "look",
        "proved",
        "every combination",
        "every combination / proved",
    ]);
    for bays in [4, 8, 12, 16] {
        let bays = made(bays);
        compare_extremes(&bays);
        compare_utilisation(&bays);
    }
    println!();
}

fn made(bays: u64) -> Bays<3> {
    let random = &mut Random::new(bays);
    let mut one = || [0; 3].map(|_: i64| random.below(401) as i64 - 200);
    Bays {
        dead: one(),
        winds: [one(), one()],
        live: (0..bays).map(|_| one()).collect(),
    }
}

impl<const C: usize> Bays<C> {
    /// The factored effects of every admissible combination: each row, each wind or none, each set of loaded bays.
    fn each(&self, mut visit: impl FnMut([i64; C])) {
        for f in &ROWS[1..9] {
            let winds = if f.wind == 0 { 0 } else { self.winds.len() };
            let sets = if f.live == 0 {
                1
            } else {
                1u32 << self.live.len()
            };
            for wind in 0..=winds {
                let mut start = self.dead.map(|e| f.dead * e);
                if wind > 0 {
                    add(&mut start, f.wind, &self.winds[wind - 1]);
                }
                for set in 0..sets {
                    visit(self.loaded(start, f.live, set));
                }
            }
        }
    }

    fn loaded(&self, mut total: [i64; C], factor: i64, set: u32) -> [i64; C] {
        for (k, effects) in self.live.iter().enumerate() {
            if set >> k & 1 == 1 {
                add(&mut total, factor, effects);
            }
        }
        total
    }
}

fn add<const C: usize>(total: &mut [i64; C], factor: i64, effects: &[i64; C]) {
    for (sum, e) in total.iter_mut().zip(effects) {
        *sum += factor * e;
    }
}

impl Bays<1> {
    fn extremes(&self) -> (i64, i64) {
        let (mut maximum, mut minimum) = (i64::MIN, i64::MAX);
        self.each(|[n]| {
            maximum = maximum.max(n);
            minimum = minimum.min(n);
        });
        (maximum, minimum)
    }
}

impl Bays<3> {
    fn numerator(&self) -> i64 {
        let [n, y, z] = CAPACITIES.map(i64::from);
        let mut greatest = 0;
        self.each(|e| {
            let [a, b, c] = e.map(i64::abs);
            greatest = greatest.max(a * y * z + b * n * z + c * n * y);
        });
        greatest
    }

    /// N alone.
    fn axial(&self) -> Bays<1> {
        let n = |e: [i64; 3]| [e[0]];
        Bays {
            dead: n(self.dead),
            winds: self.winds.map(n),
            live: self.live.iter().copied().map(n).collect(),
        }
    }

    fn sheet(&self) -> Sheet {
        let mut sheet = Sheet::new(Settings::default());
        let mut add = |case, kind, effects: [i64; 3]| {
            let [n, my, mz] = effects.map(|e| e as i16);
            sheet.add_case(case, kind).unwrap();
            sheet.set_effects(case, 0, Effects { n, my, mz }).unwrap();
        };
        add(0, Kind::Dead, self.dead);
        add(1, Kind::Wind, self.winds[0]);
        add(2, Kind::Wind, self.winds[1]);
        for (case, &effects) in (3..).zip(&self.live) {
            add(case, Kind::Live, effects);
        }
        let [n, my, mz] = CAPACITIES;
        sheet.set_capacities(0, Capacities { n, my, mz }).unwrap();
        sheet
    }

    /// How many passes over the combinations make a round long enough to time.
    fn passes(&self) -> usize {
        (1 << 16 >> self.live.len()).clamp(1, 2_000)
    }
}

fn compare_extremes(bays: &Bays<3>) {
    let (sheet, axial) = (bays.sheet(), bays.axial());
    let x = sheet.extremes(0, Component::N).unwrap();
    assert_eq!(axial.extremes(), (x.maximum.value, x.minimum.value));
    let look = Field::Extremes {
        station: 0,
        component: Component::N,
    };
    compare("06", bays, &sheet, look, || {
        black_box(black_box(&axial).extremes());
    });
}

fn compare_utilisation(bays: &Bays<3>) {
    let sheet = bays.sheet();
    let u = sheet.utilisation(0).unwrap();
    assert_eq!(bays.numerator() as u64, u.numerator);
    compare(
        "07",
        bays,
        &sheet,
        Field::Utilisation { station: 0 },
        || {
            black_box(black_box(bays).numerator());
        },
    );
}

fn compare(tag: &str, bays: &Bays<3>, sheet: &Sheet, look: Field, pass: impl Fn()) {
    let input = lists::bytes(&[look; LOOKS]);
    let mut output = vec![0; ANSWER * LOOKS];
    let lanes = vec![
        lane(LOOKS, || {
            answer(sheet.save(), black_box(&input), &mut output).unwrap();
        }),
        lane(bays.passes(), || (0..bays.passes()).for_each(|_| pass())),
    ];
    let count = if bays.live.len() < 16 { 200 } else { 30 };
    let rounds = interleave(Clock::Thread, count, lanes);
    assert!(matches!(
        Answer::decode(&output),
        Some((Answer::Extremes(_) | Answer::Utilisation(_), _))
    ));
    row(&[
        &format!("{tag}, {} bays, dead, 2 winds", bays.live.len()),
        &time(rounds.time(0).median),
        &time(rounds.time(1).median),
        &rounds.ratio(1, 0).shown(),
    ]);
}
