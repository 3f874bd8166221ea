//! What smt-scope's blame.rs asks of its parser, over the tables of one request.

pub mod bugs;
pub mod egraph;
pub mod run;

/// smt-scope's search for blame, and what we watch of it. The second file stands in the same module, so
/// that it can read the tables of a BlameFinder.
pub mod blame {
    include!(concat!(env!("SMT_SCOPE_SRC"), "/parsers/z3/blame.rs"));
    include!(concat!(env!("CARGO_MANIFEST_DIR"), "/src/parsers/z3/watch.rs"));
}

use std::cell::RefCell;
use std::ops::Index;

use crate::items::{ENode, ENodeIdx, EqTransIdx, MatchKind, Term, TermIdx};
use crate::{IString, NonMaxU32, StringTable};
use blame::Event;
use egraph::EGraph;

pub struct Stack;

/// The version of Z3, if one is given.
pub struct VersionInfo(pub Option<(u64, u64, u64)>);

impl VersionInfo {
    pub fn is_ge_version(&self, major: u64, minor: u64, patch: u64) -> bool {
        self.0.is_some_and(|version| version >= (major, minor, patch))
    }
    pub fn is_le_version(&self, major: u64, minor: u64, patch: u64) -> bool {
        self.0.is_some_and(|version| version <= (major, minor, patch))
    }
}

pub struct Z3Parser {
    pub version_info: VersionInfo,
    pub terms: Vec<Term>,
    pub strings: StringTable,
    pub egraph: EGraph,
    pub stack: Stack,
    /// What a round did so far.
    pub events: RefCell<Vec<Event>>,
}

impl Z3Parser {
    pub fn from_to(&self, eq: EqTransIdx) -> (ENodeIdx, ENodeIdx) {
        self.egraph.from_to(eq)
    }
    fn bound(&self, match_: &MatchKind, qvar: NonMaxU32) -> Option<TermIdx> {
        match_.bound_term(|node| &self[node], qvar)
    }
}

impl Index<TermIdx> for Z3Parser {
    type Output = Term;
    fn index(&self, term: TermIdx) -> &Term {
        &self.terms[usize::from(term)]
    }
}
impl Index<ENodeIdx> for Z3Parser {
    type Output = ENode;
    fn index(&self, node: ENodeIdx) -> &ENode {
        &self.egraph.enodes[usize::from(node)]
    }
}
impl Index<IString> for Z3Parser {
    type Output = str;
    fn index(&self, name: IString) -> &str {
        &self.strings[*name]
    }
}
