//! Errors, each a type with its words.

/// An error whose variants have these words: what a program prints.
macro_rules! error {
    (
        $(#[$about:meta])*
        $name:ident { $($(#[$doc:meta])* $variant:ident = $words:literal,)* }
    ) => {
        $(#[$about])*
        #[derive(Clone, Copy, Debug, PartialEq, Eq)]
        #[non_exhaustive]
        pub enum $name {
            $($(#[$doc])* $variant,)*
        }

        impl core::fmt::Display for $name {
            fn fmt(&self, to: &mut core::fmt::Formatter<'_>) -> core::fmt::Result {
                to.write_str(match self {
                    $($name::$variant => $words,)*
                })
            }
        }

        impl core::error::Error for $name {}
    };
}
pub(super) use error;
