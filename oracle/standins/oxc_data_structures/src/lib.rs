//! Stand-in for oxc_data_structures: an enum that lists its variants, an assertion, and a hint that hints nothing.

/// The enum as it stands, and `VARIANTS`, all its variants in the order of their numbers.
#[macro_export]
macro_rules! fieldless_enum {
    (
        $(#[$attribute:meta])*
        $vis:vis enum $name:ident {
            $($(#[$of_variant:meta])* $variant:ident $(= $number:literal)?,)*
        }
    ) => {
        $(#[$attribute])*
        $vis enum $name {
            $($(#[$of_variant])* $variant $(= $number)?,)*
        }

        impl $name {
            $vis const VARIANTS: &[Self] = &[$(Self::$variant,)*];
        }
    };
}

/// The real one lets the compiler take the condition for true; this one checks it.
#[macro_export]
macro_rules! assert_unchecked {
    ($condition:expr) => {
        assert!($condition)
    };
}

pub mod branch_hints {
    pub fn cold_path() {}
}
