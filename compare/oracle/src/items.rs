//! The items: numbers of things, and smt-scope's own terms, matches and nodes.

mod term {
    include!(concat!(env!("SMT_SCOPE_SRC"), "/items/term.rs"));
}
mod inst {
    include!(concat!(env!("SMT_SCOPE_SRC"), "/items/inst.rs"));
}
mod enode {
    include!(concat!(env!("SMT_SCOPE_SRC"), "/items/enode.rs"));
}

pub use enode::*;
pub use inst::*;
pub use term::*;

macro_rules! index {
    ($($name:ident),*) => {$(
        #[derive(Debug, Clone, Copy, PartialEq, Eq, PartialOrd, Ord, Hash)]
        pub struct $name(u32);

        impl $name {
            pub const MAX: Self = Self(u32::MAX);
        }
        /// What is too large for an index stands for nothing, and is never looked up.
        impl From<usize> for $name {
            fn from(number: usize) -> Self {
                u32::try_from(number).map_or(Self::MAX, Self)
            }
        }
        impl From<$name> for usize {
            fn from(index: $name) -> usize {
                index.0 as usize
            }
        }
    )*};
}

index!(TermIdx, ENodeIdx, EqTransIdx, EqGivenIdx, QuantIdx, PatternIdx, InstIdx, MatchIdx, ProofIdx, StackIdx);

#[derive(Debug, Clone, Copy, PartialEq, Eq, Hash)]
pub struct QuantPat {
    pub quant: QuantIdx,
    pub pat: Option<PatternIdx>,
}
