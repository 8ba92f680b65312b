//! Why a run stops early.

/// What a module did that it may not.
#[derive(Debug, Clone, Copy, PartialEq, Eq)]
pub enum Fault {
    /// A result that is no word, a divisor of 0, or a number that is not below its bound.
    ErrorFlag,
    /// A byte of code that is not there.
    OutsideCode,
    /// A byte of memory that is not there.
    OutsideMemory,
    /// A count of bits or bytes that is too large.
    Count,
    /// A message of another length than the link's.
    Length,
    /// An alternation without a branch that is selected.
    Alternation,
    /// An operation that is not there.
    Unknown,
    /// A read or a write that failed.
    Failed,
}
