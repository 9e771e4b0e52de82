//! A stand-in for the crate mctp: of it, the errors that the items taken give back.

#[derive(Debug, Clone, Copy, PartialEq, Eq)]
pub enum Error {
    BadArgument,
    InvalidInput,
    RxFailure,
    TxFailure,
}

pub type Result<T> = core::result::Result<T, Error>;
