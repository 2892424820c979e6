//! Nanoseconds a step at n = 64, 256 and 1,024 where every vertex has the same surroundings whatever n is.

use crate::clock::{rounds, Rounds};
use crate::graphs::{Graph, NEAR_CLIQUES, RINGS};
use crate::packed::Packed;
use crate::shown;
use isolated::{page, work_entries, Kind, Notion, Settings};
use std::hint::black_box;

/// Steps timed for each n; shorter walks are made several times.
const STEPS: u32 = 4_000_000;

pub struct Timed {
    graph: Packed,
    settings: Settings,
    position: Vec<u8>,
    output: Vec<u16>,
    work: Vec<u16>,
}

impl Timed {
    pub fn new(graph: &Graph, settings: Settings) -> Timed {
        let n = graph.n;
        let (position, output, work) = (vec![0; n], vec![0; 1 << 22], vec![0; work_entries(n)]);
        Timed { graph: Packed::of(graph), settings, position, output, work }
    }

    /// Pages from fresh with this budget each, so many times; the steps made in all.
    pub fn pages(&mut self, budget: u32, times: u64) -> u64 {
        let mut steps = 0;
        for _ in 0..times {
            self.position.fill(0);
            let made = page(
                black_box(&self.graph.table),
                &self.graph.degrees,
                &mut self.position,
                &mut self.output,
                &mut self.work,
                self.graph.n,
                self.settings,
                budget,
            );
            steps += u64::from(made.expect("the graph is sound").steps);
        }
        steps
    }

    /// How often the walk is made so that some STEPS are timed.
    pub fn times(&mut self) -> u64 {
        u64::from(STEPS).div_ceil(self.pages(STEPS, 1))
    }
}

/// Nanoseconds a step without the opening of each call (its tests and the ranks), for several walks side by side.
pub fn step_times(walks: &mut [Timed]) -> Rounds {
    let times: Vec<u64> = walks.iter_mut().map(Timed::times).collect();
    let steps: Vec<u64> = walks.iter_mut().zip(&times).map(|(walk, &times)| walk.pages(STEPS, times)).collect();
    let mut jobs: Vec<Box<dyn FnMut() + '_>> = Vec::new();
    for (walk, &times) in walks.iter_mut().zip(&times) {
        let walk = std::rc::Rc::new(std::cell::RefCell::new(walk));
        let opening = walk.clone();
        jobs.push(Box::new(move || {
            walk.borrow_mut().pages(STEPS, times);
        }));
        jobs.push(Box::new(move || {
            opening.borrow_mut().pages(0, times);
        }));
    }
    let mut lent: Vec<&mut dyn FnMut()> = jobs.iter_mut().map(|job| &mut **job as &mut dyn FnMut()).collect();
    let a_step = |(pair, &steps): (&[f64], &u64)| (pair[0] - pair[1]) / steps as f64;
    rounds(&mut lent).map(|times| times.chunks(2).zip(&steps).map(a_step).collect())
}

pub fn print() {
    println!("## A step does not depend on n\n");
    println!("Nanoseconds a step, the call's opening taken off. The bar: n = 1,024 takes at most 1.5 times n = 64.\n");
    println!("| graph | settings | n = 64 | n = 256 | n = 1,024 | 1,024 to 64 |");
    println!("|---|---|---|---|---|---|");
    for ((name, make), notion, kind, c) in [
        (NEAR_CLIQUES, Notion::Max, Kind::MaximalIsolated, 4),
        (NEAR_CLIQUES, Notion::Avg, Kind::IsolatedMaximal, 4),
        (RINGS, Notion::Max, Kind::MaximalIsolated, 6),
        (RINGS, Notion::Min, Kind::IsolatedMaximal, 6),
    ] {
        let settings = Settings { notion, kind, c };
        let mut walks = [64, 256, 1024].map(|n| Timed::new(&make(n), settings));
        let rounds = step_times(&mut walks);
        println!(
            "| {name} | {} | {:.2} | {:.2} | {:.2} | {:.2} |",
            shown::settings(settings),
            rounds.time(0),
            rounds.time(1),
            rounds.time(2),
            rounds.ratio(2, 0)
        );
    }
    println!();
}
