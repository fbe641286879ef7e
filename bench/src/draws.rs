//! Sheets drawn from a seed: the same seed gives the same sheet.
use crate::planner::Planner;
use crate::sheet::{Leg, Plan, Sheet};

/// The SplitMix64 generator.
pub struct Draws {
    state: u64,
}

impl Draws {
    pub fn new(seed: u64) -> Draws {
        Draws { state: seed }
    }

    fn next(&mut self) -> u64 {
        self.state = self.state.wrapping_add(0x9e37_79b9_7f4a_7c15);
        let mut z = self.state;
        z = (z ^ (z >> 30)).wrapping_mul(0xbf58_476d_1ce4_e5b9);
        z = (z ^ (z >> 27)).wrapping_mul(0x94d0_49bb_1331_11eb);
        z ^ (z >> 31)
    }

    /// From `low` to `high`, both included.
    pub fn between(&mut self, low: u32, high: u32) -> u32 {
        low + (self.next() % (high - low + 1) as u64) as u32
    }
}

/// Where a plan's limit lies: so many hundredths of the way from the fastest walk's delay to the cheapest one's. One tight limit in
/// eight is just below the fastest walk's delay, so that the plan has no route.
#[derive(Clone, Copy)]
pub enum Limits {
    Tight,
    Middle,
    Loose,
    Anywhere,
}

impl Limits {
    fn between(self, draws: &mut Draws, fastest: u32, cheapest: u32) -> u32 {
        if matches!(self, Limits::Tight) && draws.between(0, 7) == 0 {
            return fastest.saturating_sub(1);
        }
        let part = (cheapest - fastest) as u64 * self.hundredths(draws) as u64 / 100;
        fastest + part as u32
    }

    fn hundredths(self, draws: &mut Draws) -> u32 {
        match self {
            Limits::Tight => draws.between(1, 10),
            Limits::Middle => draws.between(40, 60),
            Limits::Loose => draws.between(100, 200),
            Limits::Anywhere => draws.between(10, 90),
        }
    }
}

/// A leg between any two sites; its fee tends to fall as its delay rises, and its medium is any.
fn any_leg(draws: &mut Draws, tail: u16, head: u16) -> Leg {
    let stated = draws.between(10, 1000);
    Leg {
        tail,
        head,
        fee: (1010 - stated) / 2 + draws.between(1, 500),
        grade: draws.between(0, 255) as u8,
        stated,
        medium: draws.between(0, 7) as u8,
    }
}

/// A ring through all sites, so that each reaches each, and legs between any two sites up to the number wanted.
fn random_network(draws: &mut Draws, sites: usize, legs: usize) -> Sheet {
    let mut sheet = Sheet {
        sites,
        ..Sheet::default()
    };
    for tail in 0..sites {
        let head = (tail + 1) % sites;
        sheet.legs.push(any_leg(draws, tail as u16, head as u16));
    }
    while sheet.legs.len() < legs {
        let tail = draws.between(0, sites as u32 - 1) as u16;
        let head = draws.between(0, sites as u32 - 1) as u16;
        sheet.legs.push(any_leg(draws, tail, head));
    }
    shuffle(draws, &mut sheet.legs);
    sheet
}

/// A square grid with a leg each way between neighbours. The fee of a leg falls as its delay rises.
fn grid(draws: &mut Draws, side: usize, slowest: u32) -> Sheet {
    let mut sheet = Sheet {
        sites: side * side,
        ..Sheet::default()
    };
    let at = |row: usize, column: usize| (row * side + column) as u16;
    for row in 0..side {
        for column in 0..side {
            if column + 1 < side {
                add_both(
                    draws,
                    &mut sheet,
                    at(row, column),
                    at(row, column + 1),
                    slowest,
                );
            }
            if row + 1 < side {
                add_both(
                    draws,
                    &mut sheet,
                    at(row, column),
                    at(row + 1, column),
                    slowest,
                );
            }
        }
    }
    shuffle(draws, &mut sheet.legs);
    sheet
}

fn add_both(draws: &mut Draws, sheet: &mut Sheet, a: u16, b: u16, slowest: u32) {
    for (tail, head) in [(a, b), (b, a)] {
        let stated = draws.between(1, slowest);
        sheet.legs.push(Leg {
            tail,
            head,
            fee: 100 * (slowest + 1 - stated) + draws.between(0, 99),
            grade: draws.between(0, 255) as u8,
            stated,
            medium: 0,
        });
    }
}

fn shuffle(draws: &mut Draws, legs: &mut [Leg]) {
    for i in (1..legs.len()).rev() {
        legs.swap(i, draws.between(0, i as u32) as usize);
    }
}

/// Adds plans between ends that `ends` draws.
fn add_plans(
    draws: &mut Draws,
    sheet: &mut Sheet,
    plans: usize,
    limits: Limits,
    ends: impl Fn(&mut Draws) -> (u16, u16),
) {
    let mut planner = Planner::new(sheet);
    while sheet.plans.len() < plans {
        let (start, goal) = ends(draws);
        let Some((fastest, cheapest)) = planner.delays_between(start, goal) else {
            continue;
        };
        if fastest == cheapest {
            continue;
        }
        let limit = limits.between(draws, fastest, cheapest);
        sheet.plans.push(Plan {
            broker: draws.between(0, 999) as u16,
            start,
            goal,
            limit,
        });
    }
}

/// A network of any legs, with plans between any two sites.
pub fn random_sheet(seed: u64, sites: usize, legs: usize, plans: usize, limits: Limits) -> Sheet {
    let mut draws = Draws::new(seed);
    let mut sheet = random_network(&mut draws, sites, legs);
    let last = sites as u32 - 1;
    add_plans(&mut draws, &mut sheet, plans, limits, |draws| {
        (draws.between(0, last) as u16, draws.between(0, last) as u16)
    });
    sheet
}

/// A grid, with plans from its first row to its last, so that many walks compete.
pub fn hard_sheet(seed: u64, side: usize, slowest: u32, plans: usize) -> Sheet {
    let mut draws = Draws::new(seed);
    let mut sheet = grid(&mut draws, side, slowest);
    let last = side as u32 - 1;
    add_plans(&mut draws, &mut sheet, plans, Limits::Anywhere, |draws| {
        let start = draws.between(0, last);
        let goal = last * side as u32 + draws.between(0, last);
        (start as u16, goal as u16)
    });
    sheet
}
