//! A safe face of the verified machine for damage-claim worksheets.
//!
//! A [`Machine`] has one to eight seats. A claim's worksheet is loaded into a seat as an image, runs by the entries of
//! a schedule, and is reported. Claims never see one another's cells.
//!
//! ```
//! use lapisgable::{Entry, Instruction::*, Machine, Share, Sheet, Status, Value};
//!
//! # fn main() -> Result<(), lapisgable::Refusal> {
//! let mut machine = Machine::open(&[Share { cells: 8, threads: 4 }])?;
//!
//! // Two damages, summed into the result's cell.
//! let damages = Sheet::new(3).input(Value::Integer(850)).input(Value::Integer(1_200));
//! machine.load(0, &damages.code(&[Add(1, 2), Store(0), End]))?;
//!
//! // Three turns for the first ready thread of seat 0.
//! machine.run(&[Entry { seat: 0, pick: 0 }; 3])?;
//!
//! let report = machine.report(0)?;
//! assert_eq!(report.status, Status::Finished);
//! assert_eq!(report.result, Some(Value::Integer(2_050)));
//! # Ok(())
//! # }
//! ```
//!
//! Every call answers or is refused, and a refused call changes nothing. The work is done by a proved archive, which
//! `tools/archive` builds in the project's root and which this crate links; [`lent`] has its calls as they are.
pub mod lent;

mod machine;
mod refusal;
mod report;
mod schedule;
mod sheet;
mod value;

pub use machine::{Machine, Share};
pub use refusal::Refusal;
pub use report::{Forbidden, Report, Status};
pub use schedule::{Answer, Answers, Entry};
pub use sheet::{Instruction, Sheet};
pub use value::Value;
