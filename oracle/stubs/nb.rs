//! The part of the crate `nb` that lib.rs names: an interface without behaviour.

#![no_std]

/// An answer that is not a value.
#[derive(Debug, Clone, Copy, PartialEq, Eq)]
pub enum Error<E> {
    /// A failure.
    Other(E),
    /// Not ready yet.
    WouldBlock,
}

/// A value, a failure, or not ready yet.
pub type Result<T, E> = core::result::Result<T, Error<E>>;
