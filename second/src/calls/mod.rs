//! Every call of the archive, compared with the second program and tried on memory that no calls made.
//! `call`, `lent`, `side` and `lengths` make a call, `trial`, `known` and `memory` judge it, `draw`, `arguments`,
//! `lists` and `overwrite` choose it, `run` goes through many.

mod arguments;
mod call;
mod draw;
mod known;
mod lengths;
mod lent;
mod lists;
mod memory;
mod overwrite;
mod run;
mod side;
mod trial;

pub use run::{run, summary, Counts, Difference};
pub use side::Fault;
pub use trial::{Finding, Kind};
