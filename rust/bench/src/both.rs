//! The proved machine and the tuned one, side by side in the same state.
use bench::tuned::Tuned;
use lapisgable::{Machine, Share};

#[derive(Clone)]
pub struct Both {
    pub proved: Machine,
    pub tuned: Tuned,
}

impl Both {
    pub fn open(shares: &[Share]) -> Both {
        let proved = Machine::open(shares).expect("fair shares");
        let mut tuned = Tuned::default();
        tuned.open(&row_of(shares)).expect("fair shares");
        Both { proved, tuned }
    }

    pub fn load(mut self, seat: u32, image: &[u8]) -> Both {
        self.proved.load(seat, image).expect("a good image");
        self.tuned.load(seat, image).expect("a good image");
        self
    }

    /// Runs a schedule on both, which answer the same.
    pub fn run(mut self, schedule: &[u8]) -> Both {
        let mut answers = [vec![0; schedule.len() / 2], vec![0; schedule.len() / 2]];
        self.proved
            .run_bytes(schedule, &mut answers[0])
            .expect("a good schedule");
        self.tuned
            .run(schedule, &mut answers[1])
            .expect("a good schedule");
        assert!(answers[0] == answers[1], "the machines differ");
        self
    }
}

/// Cells and threads of each seat in turn.
pub fn row_of(shares: &[Share]) -> Vec<u32> {
    shares.iter().flat_map(|s| [s.cells, s.threads]).collect()
}
