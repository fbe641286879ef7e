//! The cheapest walk within a limit on the delay: label setting with lower bounds, as plain Rust.
//!
//! A label is a walk from the start. Labels are taken in the order of estimated cost (cost so far and the least cost on to
//! the goal), then cost, then delay, then number. A label is dropped if its delay is not below the least delay of a label
//! already expanded at its site; the first one taken at the goal is the answer.
use crate::paths::{least_to, Arcs, CUT_OFF};
use crate::sheet::{Plan, Sheet};
use std::cmp::Reverse;
use std::collections::BinaryHeap;

/// How many labels a plan may write.
pub const LABELS: usize = 65_536;

#[derive(Clone, Copy, Debug, PartialEq, Eq)]
pub enum Outcome {
    None,
    Route { cost: u64, delay: u32 },
    LabelsUsed,
}

/// What a plan comes to, in how many steps.
#[derive(Clone, Copy, Debug, PartialEq, Eq)]
pub struct Answer {
    pub outcome: Outcome,
    pub steps: u64,
}

#[derive(Clone, Copy)]
struct Label {
    cost: u64,
    delay: u32,
    site: u16,
    #[allow(dead_code)]
    parent: u32,
}

/// The arcs of a sheet, and tables that every plan uses again.
pub struct Planner {
    leaving: Arcs,
    entering: Arcs,
    costs: Vec<u64>,
    delays: Vec<u64>,
    sites: BinaryHeap<Reverse<(u64, u16)>>,
    labels: Vec<Label>,
    least: Vec<u32>,
    queue: BinaryHeap<Reverse<(u64, u64, u32, u32)>>,
}

impl Planner {
    pub fn new(sheet: &Sheet) -> Planner {
        Planner {
            leaving: Arcs::leaving(sheet),
            entering: Arcs::entering(sheet),
            costs: vec![0; sheet.sites],
            delays: vec![0; sheet.sites],
            sites: BinaryHeap::with_capacity(sheet.legs.len() + 1),
            labels: Vec::with_capacity(LABELS),
            least: vec![0; sheet.sites],
            queue: BinaryHeap::with_capacity(LABELS),
        }
    }

    /// How many labels the last plan wrote.
    pub fn labels(&self) -> usize {
        self.labels.len()
    }

    /// The least delay from `start` to `goal` and the delay of the cheapest walk, if there is one.
    pub fn delays_between(&mut self, start: u16, goal: u16) -> Option<(u32, u32)> {
        self.bound(goal);
        let fastest = self.delays[start as usize];
        if fastest == CUT_OFF {
            return None;
        }
        let unlimited = Plan {
            broker: 0,
            start,
            goal,
            limit: 1_000_000,
        };
        match self.serve(&unlimited).outcome {
            Outcome::Route { delay, .. } => Some((fastest as u32, delay)),
            _ => None,
        }
    }

    /// Writes the least costs and the least delays to a goal.
    fn bound(&mut self, goal: u16) {
        let (costs, delays) = (&mut self.costs, &mut self.delays);
        least_to(goal, &self.entering, |arc| arc.fee, costs, &mut self.sites);
        least_to(
            goal,
            &self.entering,
            |arc| arc.delay as u64,
            delays,
            &mut self.sites,
        );
    }

    /// Serves a plan from its question to its answer.
    pub fn serve(&mut self, plan: &Plan) -> Answer {
        self.bound(plan.goal);
        self.labels.clear();
        self.queue.clear();
        self.least.fill(plan.limit + 1);
        let start = plan.start as usize;
        if self.delays[start] <= plan.limit as u64 {
            self.labels.push(Label {
                cost: 0,
                delay: 0,
                site: plan.start,
                parent: 0,
            });
            self.queue.push(Reverse((self.costs[start], 0, 0, 0)));
        }
        self.search(plan)
    }

    fn search(&mut self, plan: &Plan) -> Answer {
        let mut steps = 0;
        let outcome = loop {
            steps += 1;
            let Some(Reverse((_, _, _, number))) = self.queue.pop() else {
                break Outcome::None;
            };
            let label = self.labels[number as usize];
            if label.delay >= self.least[label.site as usize] {
                continue;
            }
            self.least[label.site as usize] = label.delay;
            if label.site == plan.goal {
                break Outcome::Route {
                    cost: label.cost,
                    delay: label.delay,
                };
            }
            if !self.expand(number, label, plan.limit) {
                break Outcome::LabelsUsed;
            }
        };
        Answer { outcome, steps }
    }

    /// Tries the legs that leave a label's site; false where there is no room for a label.
    fn expand(&mut self, number: u32, label: Label, limit: u32) -> bool {
        for arc in self.leaving.at(label.site) {
            let head = arc.site as usize;
            let delay = label.delay + arc.delay;
            if self.delays[head] == CUT_OFF
                || delay as u64 + self.delays[head] > limit as u64
                || delay >= self.least[head]
            {
                continue;
            }
            if self.labels.len() == LABELS {
                return false;
            }
            let cost = label.cost + arc.fee;
            let estimate = cost + self.costs[head];
            let child = self.labels.len() as u32;
            self.labels.push(Label {
                cost,
                delay,
                site: arc.site,
                parent: number,
            });
            self.queue.push(Reverse((estimate, cost, delay, child)));
        }
        true
    }
}

#[cfg(test)]
mod tests {
    use super::*;

    /// Four sites, and routes from 0 to 3 by 1 (fee 4, delay 9), by 2 (fee 5, delay 3) and straight (fee 9, delay 1).
    const FOUR_SITES: &str = "network,4\nleg,0,1,2,3,4,0\nleg,1,3,2,1,5,0\nleg,0,2,4,2,1,0\n\
        leg,2,3,1,2,2,0\nleg,0,3,9,1,1,0\n";

    fn outcome(start: u16, goal: u16, limit: u32) -> Outcome {
        let sheet = Sheet::read(FOUR_SITES).expect("a sound sheet");
        let plan = Plan {
            broker: 0,
            start,
            goal,
            limit,
        };
        Planner::new(&sheet).serve(&plan).outcome
    }

    #[test]
    fn the_limit_decides_between_three_routes() {
        assert_eq!(outcome(0, 3, 9), Outcome::Route { cost: 4, delay: 9 });
        assert_eq!(outcome(0, 3, 8), Outcome::Route { cost: 5, delay: 3 });
        assert_eq!(outcome(0, 3, 2), Outcome::Route { cost: 9, delay: 1 });
        assert_eq!(outcome(0, 3, 0), Outcome::None);
    }

    #[test]
    fn a_site_reaches_itself_and_no_leg_leaves_site_3() {
        assert_eq!(outcome(3, 3, 0), Outcome::Route { cost: 0, delay: 0 });
        assert_eq!(outcome(3, 0, 1_000_000), Outcome::None);
    }

    #[test]
    fn handovers_count() {
        let sheet = Sheet::read("network,2\nleg,0,1,1,0,100,3\n").expect("a sound sheet");
        let mut planner = Planner::new(&sheet);
        let mut plan = Plan {
            broker: 0,
            start: 0,
            goal: 1,
            limit: 119,
        };
        assert_eq!(planner.serve(&plan).outcome, Outcome::None);
        plan.limit = 120;
        assert_eq!(
            planner.serve(&plan).outcome,
            Outcome::Route {
                cost: 1,
                delay: 120
            }
        );
    }
}
