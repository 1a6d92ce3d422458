//! Agents and calls of the published Rust with its square roots taken digit by digit, as a machine without a square root
//! would: they are there to be timed, and come to what `published`'s do.
use crate::call::call_of;

call_of!(dodgy_3d_digits);
