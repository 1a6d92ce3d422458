//! Guineacrumb against the published Rust: the velocity call, and the fleet table. And its spacing report against one in
//! plain Rust.
//!
//! Guineacrumb is an x86-64 archive, and this program runs on any machine: so the library is reached
//! through a small C program (`../velocity_server.c`), emulated where it has to be, that makes the calls
//! that it is sent (`server`). The inputs are drawn by `inputs`, from a seed and a number, so that each
//! can be drawn again by itself. What has to come of them is worked out by `published`: from dodgy_3d,
//! and from document 01's table where that refuses and the Rust does not. Where the two are timed,
//! `by_digits` is a third: the Rust without the machine's square root.
//!
//! The fleet table is compared with the published Simulator in the same way: `flights` draws fleets and the `calls`
//! on them, `simulated` works out what has to come of these, and `replay` has the program of that name make them. The
//! program tenticks is compared over fleets of the same kinds.
//!
//! Some of both are written to files, which the gate runs (`stored`).
//!
//! The spacing report is compared with `spacing`, which needs nothing of the published Rust: `positions` draws the inputs,
//! and `spacing_report` has the program of that name read them.
pub mod by_digits;
mod call;
pub mod calls;
pub mod case;
pub mod file;
pub mod flights;
pub mod inputs;
pub mod piped;
pub mod positions;
pub mod published;
pub mod random;
pub mod record;
pub mod replay;
pub mod server;
pub mod simulated;
pub mod spacing;
pub mod spacing_report;
pub mod stored;
mod ties;
pub mod times;
