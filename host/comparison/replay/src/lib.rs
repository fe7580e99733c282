//! Calls from a stream through the C exports, in one process, for texts and rooms of any size: a line for each as soon as it is answered.
//!
//! The comparison holds these lines against the independent program's. So the C functions are called themselves, over rooms that are full of 7, and
//! nothing is put right between the call and the digests: a library that writes where it should not shows it.
//!
//! Nothing is linked here. The program hands in the functions of the proved archive; the tests hand in those of the stand-in, and of a library that is
//! wrong.

pub mod block;
pub mod calls;
pub mod exports;
pub mod failure;
pub mod input;
pub mod lines;
pub mod rooms;
pub mod run;

pub use exports::Exports;
pub use failure::Failure;
pub use run::run;
