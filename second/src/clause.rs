//! Lists of single clauses, and of single cases.
//!
//! A rule of the paper is often several conditions joined by "or". For the histogram each of
//! them is told apart, so every list of clauses is an enum whose order is the order in which the
//! paper names them. A set of broken clauses is a 128-bit number; its lowest bit is the first
//! broken clause. A list of cases is the same without the sets, and without texts where nobody reads
//! them.

macro_rules! cases {
    ($(#[$note:meta])* $name:ident { $($variant:ident,)* }) => {
        $(#[$note])*
        #[derive(Clone, Copy, Debug, PartialEq, Eq)]
        pub enum $name { $($variant),* }

        impl $name {
            /// All of them, in their order.
            pub const ALL: &'static [$name] = &[$($name::$variant),*];
        }
    };
    ($(#[$note:meta])* $name:ident { $($variant:ident $text:literal,)* }) => {
        $crate::clause::cases! { $(#[$note])* $name { $($variant,)* } }

        impl $name {
            /// A few words for the histogram.
            pub fn text(self) -> &'static str {
                match self { $($name::$variant => $text),* }
            }
        }
    };
}

macro_rules! clauses {
    ($(#[$note:meta])* $name:ident { $($variant:ident $text:literal,)* }) => {
        $crate::clause::cases! { $(#[$note])* $name { $($variant $text,)* } }

        impl $name {
            /// The clause's place in a set of clauses.
            pub fn bit(self) -> u128 {
                1 << (self as u32)
            }

            /// The first clause of a set, in the paper's order.
            pub fn first(set: u128) -> Option<$name> {
                if set == 0 { None } else { Some(Self::ALL[set.trailing_zeros() as usize]) }
            }
        }
    };
}

pub(crate) use {cases, clauses};
