//! The verified calls beside the reference, on the same inputs.

pub mod calls;
pub mod classes;
pub mod fast;
pub mod held;
pub mod inputs;
pub mod programs;
pub mod rooms;
