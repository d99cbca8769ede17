//! The relay frame, written a second time from its description alone and
//! without the library it is compared with.

pub mod changes;
pub mod check;
pub mod frame;
pub mod listing;
pub mod records;
pub mod rule;
pub mod swift;

/// Why a call gave nothing: its code and the number beside it.
#[derive(Clone, Copy, Debug, PartialEq, Eq)]
pub struct Refusal {
    pub code: u32,
    pub number: u32,
}

pub(crate) fn refuse<T>(code: u32, number: usize) -> Result<T, Refusal> {
    let number = u32::try_from(number).expect("every number of a refusal is small");
    Err(Refusal { code, number })
}
