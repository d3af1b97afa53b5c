//! The machine for damage-claim worksheets, written once more from the rules alone: vectors and enums, no buffers and no proofs.
//! Words between quotes are those of the rules.
pub mod claim;
pub mod instruction;
pub mod sheet;
mod step;
pub mod value;

use claim::{Claim, Region, Status};
use sheet::Sheet;
use value::Value;

#[derive(Clone, Debug, PartialEq)]
pub struct Seat {
    pub region: Region,
    /// None where the seat is vacant.
    pub claim: Option<Claim>,
}

#[derive(Clone, Debug, PartialEq)]
pub struct Machine {
    pub seats: Vec<Seat>,
}

/// "Position and refusal are 0 unless refused. The result is none where its cell is empty."
#[derive(Clone, Copy, Debug, PartialEq)]
pub struct Report {
    pub status: Status,
    pub refusal: u8,
    pub position: u16,
    pub used: u32,
    pub live: u32,
    pub steps: u32,
    pub result: Option<Value>,
}

/// What a refused report says, and a vacant seat's.
pub const NOTHING: Report = Report {
    status: Status::Vacant,
    refusal: 0,
    position: 0,
    used: 0,
    live: 0,
    steps: 0,
    result: None,
};

impl Machine {
    /// "Opening a machine fixes 1 to 8 seats. Each has a share of cells (1 to 1,024; 2,048 in all seats together) and of threads
    /// (1 to 32)." The shares are cells and threads of each seat in turn.
    pub fn open(shares: &[u32]) -> Result<Machine, u32> {
        let within = |share: &[u32]| (1..=1024).contains(&share[0]) && (1..=32).contains(&share[1]);
        let even = shares.len().is_multiple_of(2) && (1..=8).contains(&(shares.len() / 2));
        if !even || !shares.chunks(2).all(within) {
            return Err(30);
        }
        let mut start = 0;
        let mut seats = Vec::new();
        for share in shares.chunks(2) {
            seats.push(Seat {
                region: Region {
                    start,
                    cells: share[0],
                    threads: share[1],
                },
                claim: None,
            });
            start += share[0];
        }
        if start > 2048 {
            Err(30)
        } else {
            Ok(Machine { seats })
        }
    }

    fn seat(&mut self, seat: u32) -> Result<&mut Seat, u32> {
        self.seats.get_mut(seat as usize).ok_or(20)
    }

    /// A refused load gives its number, and with 23 the place.
    pub fn load(&mut self, seat: u32, image: &[u8]) -> Result<(), (u32, usize)> {
        let seat = self.seat(seat).map_err(|number| (number, 0))?;
        if seat.claim.is_some() {
            return Err((21, 0));
        }
        if image.len() > 4096 {
            return Err((22, 0));
        }
        let sheet = Sheet::read(image).map_err(|place| (23, place))?;
        if u32::from(sheet.slots) > seat.region.cells {
            return Err((24, 0));
        }
        seat.claim = Some(Claim::load(seat.region, image, sheet));
        Ok(())
    }

    /// "A run takes a schedule of even length up to 65,534 bytes and writes one answer byte an entry."
    pub fn may_run(schedule: &[u8], room_for_answers: usize) -> Result<(), u32> {
        if !schedule.len().is_multiple_of(2) || schedule.len() > 65_534 {
            return Err(33);
        }
        if room_for_answers < schedule.len() / 2 {
            return Err(34);
        }
        Ok(())
    }

    pub fn run(&mut self, schedule: &[u8], room_for_answers: usize) -> Result<Vec<u8>, u32> {
        Machine::may_run(schedule, room_for_answers)?;
        Ok(schedule
            .chunks(2)
            .map(|entry| self.entry(entry[0], entry[1]))
            .collect())
    }

    /// One schedule entry. "Answers, tested in the order 4, 5, 7, 6."
    pub fn entry(&mut self, seat: u8, pick: u8) -> u8 {
        let Some(seat) = self.seats.get_mut(usize::from(seat)) else {
            return 4;
        };
        let Some(claim) = seat
            .claim
            .as_mut()
            .filter(|claim| claim.status() == Status::Running)
        else {
            return 5;
        };
        if claim.steps == 4_294_967_295 {
            return 7;
        }
        if usize::from(pick) >= claim.ready.len() {
            return 6;
        }
        claim.turn(usize::from(pick))
    }

    pub fn report(&self, seat: u32) -> Result<Report, u32> {
        let seat = self.seats.get(seat as usize).ok_or(20u32)?;
        let Some(claim) = &seat.claim else {
            return Ok(NOTHING);
        };
        Ok(Report {
            status: claim.status(),
            refusal: claim.refusal.map_or(0, |refusal| refusal.number),
            position: claim
                .refusal
                .map_or(0, |refusal| claim.ready[refusal.pick].position),
            used: claim.cells.len() as u32,
            live: claim.live() as u32,
            steps: claim.steps,
            result: claim.cells[0].value,
        })
    }

    /// "Clearing a seat in any status but vacant brings back what opening gave it."
    pub fn clear(&mut self, seat: u32) -> Result<(), u32> {
        self.seat(seat)?.claim.take().map(|_| ()).ok_or(35)
    }
}
