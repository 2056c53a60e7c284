//! Which locals and spill slots of a function may use the same bytes of its stack frame, by a component that is proved.
//!
//! A [`Job`] has a function's records: blocks and edges, instructions with their operands, which of them hold the address of a local, live ranges
//! of registers, and the moves of spilled ones. [`Job::share`] answers with a [`Plan`], the cells of the frame, where they lie and the cell of each item,
//! or with a [`Refusal`], which names the first record that is not as it has to be. Whatever the records are, there is an answer.
//!
//! ```
//! use slots::{Inst, Job};
//!
//! let mut job = Job::new(20, 0);
//! job.block(0, 0, 19);
//! let (first, second) = (job.inst(Inst::at(0, 2, 3)), job.inst(Inst::at(0, 6, 7)));
//! let (a, b) = (job.local(8, 8), job.local(4, 4));
//! job.address(first, a);
//! job.address(second, b);
//!
//! let plan = job.share()?;
//! assert_eq!(plan.local(a), plan.local(b)); // they are never in use at the same point, so one cell of 8 bytes serves both
//! assert_eq!((plan.cells().len(), plan.saved(), plan.depth()), (1, 1, 8));
//! assert_eq!(plan.offsets(), [-8]); // the cell's first byte, from the frame base
//! # Ok::<(), slots::Refusal>(())
//! ```
//!
//! The parts that a plan is made of can be called by themselves: a [`Graph`]'s components, rows of bits and areas of locals, a job's [`Job::reach`],
//! [`Job::carried`], [`Job::move_ranges`], [`Job::spilled`] and [`Job::item_areas`], and the functions of [`ranges`].
//!
//! [`print_text`] takes a job as text and gives its plan, or its refusal, as text.
//!
//! The library `libslots.a` is linked from the folder that the environment variable `SLOTS_LIB` names, else from `target/staticlib` of the
//! repository that this crate stands in.
#![deny(unsafe_op_in_unsafe_fn)]
#![warn(missing_debug_implementations, missing_docs)]
#![warn(clippy::undocumented_unsafe_blocks)]

mod calls;
mod graph;
mod job;
mod part_calls;
mod parts;
mod plan;
pub mod ranges;
mod records;
mod refusal;
mod text;

pub use graph::{Components, Graph, Over};
pub use job::{Counts, Job, MOST_BUDGET, MOST_RANGES};
pub use parts::{Areas, Followed};
pub use plan::{Lent, Plan};
pub use records::{
    Address, Area, Assigned, Block, Cell, Edge, End, Inst, Item, Local, LocalEnd, Move, Operand, Piece, Place, Range, Touch, Want, NONE, NO_SLOT,
};
pub use refusal::{Kind, Refusal};
pub use text::{print_text, print_text_in, MOST_TEXT};
