//! What the published items lean on that is not in the published texts, in its smallest form.

/// In place of `parking_lot::Mutex`: the record of the external conditions has one field of this
/// type, a memo of monthly air temperatures. No item that is compared reads it; it has only to be
/// there, to be made by `Default` and to be printed by `Debug`.
pub use std::sync::Mutex;

/// In place of the crate `anyhow`: an error is its message, which keeps the different ones apart.
pub mod anyhow {
    #[derive(Clone, Debug, PartialEq)]
    pub struct Error(pub String);

    pub type Result<T, E = Error> = std::result::Result<T, E>;
}

/// `anyhow!("..")` makes an error of a message.
macro_rules! anyhow {
    ($($message:tt)*) => {
        $crate::support::anyhow::Error(format!($($message)*))
    };
}

/// `bail!("..")` returns it.
#[allow(unused_macros)]
macro_rules! bail {
    ($($message:tt)*) => {
        return Err(anyhow!($($message)*))
    };
}

/// The specification's number of a refusal, by the message that the published Rust gives.
pub fn refusal_number(error: &anyhow::Error) -> u64 {
    match error.0.as_str() {
        "Gaps or overlaps between segments not allowed." => 8,
        "End orientation is less than the start orientation. Check shading inputs." => 9,
        "Solar segment not found. Check shading inputs." => 10,
        "unexpected window shading object type encountered" => 11,
        other => panic!("the published Rust gave an error that has no number: {other}"),
    }
}
