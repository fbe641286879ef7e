//! Adjacency lists, and the least cost and least delay from every site to a goal by Dijkstra's algorithm.
use crate::sheet::{Leg, Sheet};
use std::cmp::Reverse;
use std::collections::BinaryHeap;

/// A leg as it is seen from one of its ends: the other end, the fee and the delay.
#[derive(Clone, Copy, Debug)]
pub struct Arc {
    pub site: u16,
    pub delay: u32,
    pub fee: u64,
}

/// The arcs of every site, one site after another: those of site `s` are `arcs[first[s]..first[s + 1]]`.
pub struct Arcs {
    first: Vec<usize>,
    arcs: Vec<Arc>,
}

impl Arcs {
    /// The arcs of a sheet, by the end that `near` gives, in the order of the legs.
    fn new(sheet: &Sheet, near: fn(&Leg) -> u16, far: fn(&Leg) -> u16) -> Arcs {
        let mut order: Vec<&Leg> = sheet.legs.iter().collect();
        order.sort_by_key(|leg| near(leg));
        let mut first = vec![0; sheet.sites + 1];
        for leg in &order {
            first[near(leg) as usize + 1] += 1;
        }
        for s in 0..sheet.sites {
            first[s + 1] += first[s];
        }
        let arcs = order
            .iter()
            .map(|leg| Arc {
                site: far(leg),
                delay: leg.delay(),
                fee: leg.fee as u64,
            })
            .collect();
        Arcs { first, arcs }
    }

    /// The legs that leave each site.
    pub fn leaving(sheet: &Sheet) -> Arcs {
        Arcs::new(sheet, |leg| leg.tail, |leg| leg.head)
    }

    /// The legs that enter each site.
    pub fn entering(sheet: &Sheet) -> Arcs {
        Arcs::new(sheet, |leg| leg.head, |leg| leg.tail)
    }

    pub fn at(&self, site: u16) -> &[Arc] {
        &self.arcs[self.first[site as usize]..self.first[site as usize + 1]]
    }
}

/// No walk leads to the goal.
pub const CUT_OFF: u64 = u64::MAX;

/// Writes the least weight of a walk from each site to the goal, by the arcs that enter each site.
pub fn least_to(
    goal: u16,
    entering: &Arcs,
    weight: fn(&Arc) -> u64,
    least: &mut [u64],
    heap: &mut BinaryHeap<Reverse<(u64, u16)>>,
) {
    least.fill(CUT_OFF);
    heap.clear();
    least[goal as usize] = 0;
    heap.push(Reverse((0, goal)));
    while let Some(Reverse((sum, site))) = heap.pop() {
        if sum > least[site as usize] {
            continue;
        }
        for arc in entering.at(site) {
            let longer = sum + weight(arc);
            if longer < least[arc.site as usize] {
                least[arc.site as usize] = longer;
                heap.push(Reverse((longer, arc.site)));
            }
        }
    }
}
