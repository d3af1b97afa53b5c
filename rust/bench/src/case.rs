//! One thing to time: a state made ready, and the same work on the proved machine and on the tuned one.
use crate::both::Both;
use crate::clock::{race, timed, Times};
use crate::scene::Scene;
use bench::tuned::Tuned;
use lapisgable::Machine;
use std::cell::RefCell;

/// A name, what it says in a table, and what is done.
pub struct Case {
    pub name: &'static str,
    pub says: &'static str,
    pub what: What,
}

/// A run of so many entries of a scene, or another call; made when it is asked for.
pub enum What {
    Run(fn() -> Scene, usize),
    Call(fn() -> Work),
}

impl Case {
    pub fn work(&self) -> Work {
        match self.what {
            What::Run(scene, count) => Work::run(&scene(), count),
            What::Call(work) => work(),
        }
    }

    pub fn scene(&self) -> Option<Scene> {
        match self.what {
            What::Run(scene, _) => Some(scene()),
            What::Call(_) => None,
        }
    }
}

pub struct Work {
    start: Both,
    /// How many parts, all alike, the work has.
    parts: usize,
    proved: Box<dyn Fn(&mut Machine)>,
    tuned: Box<dyn Fn(&mut Tuned)>,
}

impl Work {
    pub fn new(
        start: Both,
        proved: impl Fn(&mut Machine) + 'static,
        tuned: impl Fn(&mut Tuned) + 'static,
    ) -> Work {
        Work {
            start,
            parts: 1,
            proved: Box::new(proved),
            tuned: Box::new(tuned),
        }
    }

    /// A run of so many entries, on which the two machines answer the same.
    fn run(scene: &Scene, count: usize) -> Work {
        let (start, schedule) = (scene.both(), scene.schedule(count));
        let _ = start.clone().run(&schedule);
        let copy = schedule.clone();
        let (first, second) = (RefCell::new(vec![0; count]), RefCell::new(vec![0; count]));
        let proved = move |machine: &mut Machine| {
            let ran = machine.run_bytes(&schedule, &mut first.borrow_mut());
            ran.expect("a good schedule");
        };
        let tuned = move |machine: &mut Tuned| {
            let ran = machine.run(&copy, &mut second.borrow_mut());
            ran.expect("a good schedule");
        };
        let parts = count.max(1);
        Work {
            parts,
            ..Work::new(start, proved, tuned)
        }
    }

    /// Nanoseconds a part. Every round starts from the same state.
    pub fn measure(&self, rounds: usize) -> Times {
        let proved = || {
            let mut machine = self.start.proved.clone();
            timed(|| (self.proved)(&mut machine))
        };
        let tuned = || {
            let mut machine = self.start.tuned.clone();
            timed(|| (self.tuned)(&mut machine))
        };
        race(rounds, proved, tuned).each(self.parts)
    }
}
