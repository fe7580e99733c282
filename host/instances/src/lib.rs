//! A seeded maker of instances: drafts, profiles and constraints in the layouts of document 000 and in the shapes and sizes that EETTlib publishes, with
//! solutions that are accepted and variants that are violated at a known place.
//!
//! How it is made so that the answers are known: trains of a line follow one pattern of departures, and every record between two trains leaves room for
//! moving each of them by the reach of the offers, and for a shorter travel time. So any train may move as a whole, and any leg may run faster, and the
//! solution stays accepted.
//!
//! There is also the worst file that document 01 allows, in no published shape, whose solutions are accepted for the same reason; and files of rolling stock
//! duties, of real sizes and at document 02's limits.

mod aim;
mod dice;
mod duties;
mod make;
mod plan;
mod shape;
mod text;
mod worst;

pub use aim::{Aim, Violated};
pub use duties::{DutyPlan, DutyShape, Names};
pub use plan::{Choices, Leg, Offer, Plan, Record};
pub use shape::{Edition, Ids, Shape, Style};
pub use text::{exported, indented};
pub use worst::Worst;
