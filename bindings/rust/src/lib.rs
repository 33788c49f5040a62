//! Verifies eBPF programs and runs them on memory that is lent, within a credit. The library behind
//! it is proved: a program that is accepted never leaves the memory, ends within its cost, and
//! touches nothing else.
//!
//! ```
//! use telgovan::Program;
//!
//! // Adds the argument to the first byte, and answers what was there.
//! let source = "ldxb r0, [r1+0]\nmov64 r2, r0\nadd64 r2, r3\nstxb [r1+0], r2\nexit";
//! let program = Program::verify(1, &telgovan::assemble(source)?)?;
//! let mut memory = [40];
//! let executed = program.execute(&mut memory, 2, program.cost())?;
//! assert_eq!((executed.r0, executed.used, memory), (40, 5, [42]));
//! # Ok::<(), telgovan::Error>(())
//! ```
//!
//! | Items | For |
//! |---|---|
//! | [`assemble`], [`disassemble`], [`explain`], [`graph`], [`trace`] | texts |
//! | [`Program`], [`Piece`], [`Executed`] | programs that are verified once and run many times |
//! | [`Helpers`], [`HostedTask`], [`Event`], [`Question`] | programs that ask their host |
//! | [`Job`], [`Report`], [`Task`], [`World`], [`Stepped`] | trees of tasks |
//! | [`Desk`], [`HandedJob`], [`Sent`] | accounts and jobs of many clients |
//! | [`Error`] | refusals |
//! | [`rbpf`] | the names of the crate rbpf |
//!
//! A [`Program`] is [`Send`] and [`Sync`], and its clones run side by side. A [`HostedTask`], a
//! [`World`] and a [`Desk`] are [`Send`]: one call at a time uses each.

#![warn(missing_docs)]

mod desk;
mod error;
mod hosted;
mod job;
mod program;
mod raw;
pub mod rbpf;
mod refusals;
mod text;
mod world;

/// The version of this crate and of the library behind it.
pub const VERSION: &str = env!("CARGO_PKG_VERSION");

pub use desk::{Desk, HandedJob, Sent};
pub use error::Error;
pub use hosted::{Event, Helpers, HostedTask, Question};
pub use job::{Job, Report, Task};
pub use program::{Executed, Piece, Program};
pub use text::{assemble, disassemble, explain, graph, trace};
pub use world::{Stepped, World};
