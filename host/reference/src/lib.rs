//! A model of one BQ25690 charger, its event log, and what a program prints
//! when it runs a log. It is written from the scope paper and the maker's
//! data sheet alone, so that other implementations can be compared with it.
//!
//! Units are mV, mA and ms; TS is in thousandths of a percent of REGN.
//!
//! * [`number`], [`record`], [`event`]: the log's spelling.
//! * [`model`], [`state`], [`hold`], [`settle`], [`edges`]: one event on one
//!   model.
//! * [`pins`], [`settings`], [`registers`], [`runs`], [`stored`], [`volts`]:
//!   what the host sets; [`map`]: where it stands in the registers.
//! * [`mod@report`], [`mod@band`]: what the model shows.
//! * [`run`], [`mod@part`]: whole logs.
//! * [`generate`]: logs and models made from a seed, for comparisons.

#![forbid(unsafe_code)]
#![warn(missing_docs)]

pub mod band;
pub mod edges;
pub mod event;
pub mod generate;
pub mod hold;
pub mod map;
pub mod model;
pub mod number;
pub mod part;
pub mod pins;
pub mod record;
pub mod refusal;
pub mod registers;
pub mod report;
pub mod run;
pub mod runs;
pub mod settings;
pub mod settle;
pub mod state;
pub mod stored;
pub mod volts;

pub use band::{band, Band, TsBand};
pub use event::{EditionProfile, Event, Profile, Resistors, Run, Sample, TwoSample};
pub use hold::may_hold;
pub use model::{Model, Step};
pub use part::{part, partlog, Parting};
pub use record::{Reader, Reading};
pub use refusal::{Refusal, Refused};
pub use registers::read_register;
pub use report::{report, stat, Report, Stat};
pub use run::{runlog, statelog};
pub use settings::{Setting, Settings};
pub use state::State;
