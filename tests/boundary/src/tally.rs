//! What a test has met, counted, so that no kind dries up unnoticed.

use std::collections::BTreeMap;
use std::fmt::{Debug, Display, Formatter, Result};
use std::thread;

const WORKERS: u64 = 2;

/// How often each kind was met.
#[derive(Debug)]
pub struct Tally<Kind>(BTreeMap<Kind, u64>);

impl<Kind> Default for Tally<Kind> {
    fn default() -> Tally<Kind> {
        Tally(BTreeMap::new())
    }
}

impl<Kind: Copy + Debug + Ord> Tally<Kind> {
    pub fn note(&mut self, kind: Kind) {
        self.note_times(kind, 1);
    }

    fn note_times(&mut self, kind: Kind, times: u64) {
        *self.0.entry(kind).or_insert(0) += times;
    }

    pub fn times(&self, kind: Kind) -> u64 {
        self.0.get(&kind).copied().unwrap_or(0)
    }

    pub fn total(&self) -> u64 {
        self.0.values().sum()
    }

    pub fn kinds(&self) -> Vec<Kind> {
        self.0.keys().copied().collect()
    }

    /// Each of these kinds must have been met so often.
    pub fn expect(&self, least: impl IntoIterator<Item = (Kind, u64)>) {
        for (kind, least) in least {
            let times = self.times(kind);
            assert!(
                times >= least,
                "{kind:?} {times} times, not {least}: {self:?}"
            );
        }
    }
}

/// In one line.
impl<Kind: Debug> Display for Tally<Kind> {
    fn fmt(&self, formatter: &mut Formatter) -> Result {
        let kinds = self.0.iter();
        let told: Vec<String> = kinds
            .map(|(kind, times)| format!("{kind:?} {times}"))
            .collect();
        formatter.write_str(&told.join(", "))
    }
}

/// The seeds below this number, shared out among workers that run side by side; what all of them met.
pub fn share_out<Kind>(seeds: u64, compare: impl Fn(&[u64]) -> Tally<Kind> + Sync) -> Tally<Kind>
where
    Kind: Copy + Debug + Ord + Send,
{
    let compare = &compare;
    let share = |worker| -> Vec<u64> { (worker..seeds).step_by(WORKERS as usize).collect() };
    let shares = (0..WORKERS).map(share);
    let mut all = Tally::default();
    thread::scope(|scope| {
        let workers: Vec<_> = shares
            .map(|seeds| scope.spawn(move || compare(&seeds)))
            .collect();
        for worker in workers {
            let met = worker.join().expect("a worker found a difference");
            for (kind, times) in met.0 {
                all.note_times(kind, times);
            }
        }
    });
    all
}
