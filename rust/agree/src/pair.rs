//! A proved machine and a model side by side. Each call is made on both, and all that comes back must be the same: the answer, every
//! byte of the six buffers, what is behind them, and every seat's report.
use crate::buffers::{self, Buffers};
use crate::layout;
use crate::tally::Tally;
use lapisgable::lent::{Lodged, Told};
use model::{Machine, Report, NOTHING};

/// What a comparison gives; an error says what differs.
pub type Agreed<T> = Result<T, String>;

pub struct Pair {
    pub model: Machine,
    pub lent: Buffers,
    /// The layout of the model, with the same bytes behind it as `lent`.
    laid: Buffers,
    /// How many calls were compared.
    settled: usize,
}

/// Seats that no machine has.
const ABSENT: [u32; 2] = [8, u32::MAX];

impl Pair {
    /// Opens both on these buffers. None where the shares are refused.
    pub fn open(shares: &[u32], mut lent: Buffers, tally: &mut Tally) -> Agreed<Option<Pair>> {
        tally.tell(format_args!(
            "open {shares:?}, lengths {:?}",
            lent.lengths()
        ));
        let mut laid = lent.clone();
        let number = lent.lent().open(shares);
        tally.call(number.into());
        match Machine::open(shares) {
            Err(expected) => {
                same("open", number, expected)?;
                lent.same(&laid)?;
                Ok(None)
            }
            Ok(model) => {
                same("open", number, 0)?;
                tally.machines += 1;
                layout::write(&model, &mut laid);
                let mut pair = Pair {
                    model,
                    lent,
                    laid,
                    settled: 0,
                };
                pair.settle(tally)?;
                Ok(Some(pair))
            }
        }
    }

    /// A pair in the midst of its work: the model's state is laid on the front of the buffers.
    pub fn resume(model: Machine, mut lent: Buffers, tally: &mut Tally) -> Agreed<Pair> {
        layout::write(&model, &mut lent);
        let laid = lent.clone();
        let mut pair = Pair {
            model,
            lent,
            laid,
            settled: 0,
        };
        tally.machines += 1;
        pair.settle(tally)?;
        Ok(pair)
    }

    /// Loads an image; the number.
    pub fn load(&mut self, seat: u32, image: &[u8], tally: &mut Tally) -> Agreed<u32> {
        tally.tell(format_args!("load {seat} {image:02x?}"));
        let found = self.lent.lent().load(seat, image);
        tally.call(found.number);
        tally.images += 1;
        let (number, place) = self.model.load(seat, image).err().unwrap_or((0, 0));
        let expected = Lodged {
            number: number.into(),
            place: place as u64,
        };
        same("load", found, expected)?;
        self.settle(tally)?;
        Ok(number)
    }

    /// Runs a schedule with a lent buffer for so many answers; the answers, where it goes through.
    pub fn run(&mut self, schedule: &[u8], room: usize, tally: &mut Tally) -> Agreed<Vec<u8>> {
        tally.tell(format_args!("run {schedule:?}, room {room}"));
        let mut answers: Vec<u8> = (0..room).map(|i| 0xA0 ^ i as u8).collect();
        let mut expected = answers.clone();
        let found = self.lent.lent().run(schedule, &mut answers);
        tally.call(found.into());
        let refused = Machine::may_run(schedule, room);
        same("run", found, refused.err().unwrap_or(0))?;
        if refused.is_ok() {
            for (entry, answer) in schedule.chunks(2).zip(&mut expected) {
                *answer = self.entry(entry[0], entry[1], tally);
            }
        }
        buffers::same("answers", &answers, &expected)?;
        self.settle(tally)?;
        let entries = if refused.is_ok() {
            schedule.len() / 2
        } else {
            0
        };
        answers.truncate(entries);
        Ok(answers)
    }

    /// One entry in the model, counted.
    fn entry(&mut self, seat: u8, pick: u8, tally: &mut Tally) -> u8 {
        let kind = self.kind(seat, pick);
        let answer = self.model.entry(seat, pick);
        let refused = (answer == 3).then(|| self.model.report(seat.into()));
        let refusal = refused.map_or(0, |report| report.map_or(0, |report| report.refusal));
        tally.entry(answer, kind, refusal);
        answer
    }

    /// The kind of the instruction that a pick would run.
    fn kind(&self, seat: u8, pick: u8) -> Option<u8> {
        let claim = self.model.seats.get(usize::from(seat))?.claim.as_ref()?;
        let position = claim.ready.get(usize::from(pick))?.position;
        Some(claim.image[claim.sheet.code_start + usize::from(position)])
    }

    /// Clears a seat; the number.
    pub fn clear(&mut self, seat: u32, tally: &mut Tally) -> Agreed<u32> {
        tally.tell(format_args!("clear {seat}"));
        let found = self.lent.lent().clear(seat);
        tally.call(found.into());
        same("clear", found, self.model.clear(seat).err().unwrap_or(0))?;
        self.settle(tally)?;
        Ok(found)
    }

    /// Changes the state of both by hand, to another sound one.
    pub fn amend(&mut self, tally: &Tally, change: impl FnOnce(&mut Machine)) {
        tally.tell(format_args!("the state is changed by hand"));
        change(&mut self.model);
        layout::write(&self.model, &mut self.lent);
    }

    /// Compares every byte, then the reports: of every seat at each fourth call, of one seat in turn at the others.
    fn settle(&mut self, tally: &mut Tally) -> Agreed<()> {
        layout::write(&self.model, &mut self.laid);
        self.lent.same(&self.laid)?;
        let mut seats: Vec<u32> = (0..=self.model.seats.len() as u32).chain(ABSENT).collect();
        if !self.settled.is_multiple_of(4) {
            seats = vec![seats[self.settled % seats.len()]];
        }
        self.settled += 1;
        for seat in seats {
            let found = self.lent.lent().report(seat);
            tally.call(found.number.into());
            let expected = told(self.model.report(seat));
            same(&format!("report {seat}"), found, expected)?;
        }
        self.lent.same(&self.laid)
    }
}

/// An error where a call does not answer as expected.
pub fn same<T: PartialEq + std::fmt::Debug>(call: &str, found: T, expected: T) -> Agreed<()> {
    if found == expected {
        Ok(())
    } else {
        Err(format!("{call} answers {found:?}, expected {expected:?}"))
    }
}

/// A model's report as the archive tells it.
pub fn told(report: Result<Report, u32>) -> Told {
    let (number, report) = match report {
        Ok(report) => (0, report),
        Err(number) => (number, NOTHING),
    };
    let (kind, word) = report.result.map_or((0, 0), layout::coded);
    Told {
        number,
        status: report.status as u32,
        refusal: report.refusal.into(),
        position: report.position.into(),
        used: report.used,
        live: report.live,
        steps: report.steps,
        kind: kind.into(),
        word,
    }
}
