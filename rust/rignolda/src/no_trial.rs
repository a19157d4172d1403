//! What a trial may strike is nothing of a product.

/// The fields of a struct.
#[doc(hidden)]
#[macro_export]
macro_rules! spoils {
    ($($any:tt)*) => {};
}

/// The variants of an enum.
#[doc(hidden)]
#[macro_export]
macro_rules! spoils_one_of {
    ($($any:tt)*) => {};
}
