//! The second program: a stand-in for the Revision B debug port of the MCF5307, the pod's half that talks to it, and the
//! lister and mender of its recorded trace. Written from the requirements alone, it is what the proved programs are compared
//! with.
//!
//! A benchmark uses [`board::Board::run`], [`board::Board::event`], [`trace::list_trace`], [`page::make_page`],
//! [`page::list_from`] and [`mend::mend`].

pub mod board;
pub mod bridge;
pub mod check;
pub mod command;
pub mod cycles;
pub mod desk;
pub mod events;
pub mod line;
pub mod mend;
pub mod packets;
pub mod page;
pub mod pod;
pub mod random;
pub mod refusal;
pub mod script;
pub mod stored;
pub mod talk;
pub mod trace;
pub mod visit;
pub mod waits;
pub mod work;
