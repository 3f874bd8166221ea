//! A host in the place of smt-scope's e-graph: live nodes, two kinds of classes, and a list of equalities.

use std::cell::Cell;
use std::collections::HashMap;

use super::{bugs::TransEqAllowed, Stack};
use crate::items::{ENode, ENodeIdx, EqTransIdx, TermIdx};
use crate::{Error, Result};

const ROOM: usize = 4096;

pub struct EGraph {
    pub enodes: Vec<ENode>,
    /// For each term, its live node.
    pub live: Vec<Option<ENodeIdx>>,
    /// For each node, a number that names its class.
    pub loose: Vec<usize>,
    pub strict: Vec<usize>,
    pub listed: Vec<(ENodeIdx, ENodeIdx)>,
    pub numbers: HashMap<(ENodeIdx, ENodeIdx), EqTransIdx>,
    /// How many pairs of the present booking were handed to `new_trans_equality`.
    pub pairs_taken: usize,
    pub makings: u64,
    pub live_asked: Cell<u64>,
}

impl EGraph {
    pub fn get_enode_imm(&self, term: TermIdx, _stack: &Stack) -> Option<ENodeIdx> {
        self.live_asked.set(self.live_asked.get() + 1);
        self.live.get(usize::from(term)).copied().flatten()
    }

    pub fn check_eq(&self, from: ENodeIdx, to: ENodeIdx, _stack: &Stack) -> bool {
        self.loose[usize::from(from)] == self.loose[usize::from(to)]
    }

    pub fn from_to(&self, eq: EqTransIdx) -> (ENodeIdx, ENodeIdx) {
        self.listed[usize::from(eq)]
    }

    /// Makes an equality. As in smt-scope, two ends that are alike give an `Err` inside the `Ok`.
    pub fn new_trans_equality(
        &mut self,
        from: ENodeIdx,
        to: ENodeIdx,
        stack: &Stack,
        mismatch: TransEqAllowed,
    ) -> Result<core::result::Result<EqTransIdx, ENodeIdx>> {
        let pair = self.pairs_taken;
        self.pairs_taken += 1;
        self.makings += 1;
        if from == to {
            return Ok(Err(from));
        }
        self.make(from, to, stack, mismatch)
            .map(Ok)
            .map_err(|number| Error::Refused { number, pair })
    }

    fn make(
        &mut self,
        from: ENodeIdx,
        to: ENodeIdx,
        stack: &Stack,
        mismatch: TransEqAllowed,
    ) -> core::result::Result<EqTransIdx, u32> {
        let same = self.check_eq(from, to, stack);
        let strict = self.strict[usize::from(from)] == self.strict[usize::from(to)];
        if !same && !mismatch.can_mismatch_initial {
            return Err(13);
        }
        if same && !strict && !mismatch.can_mismatch_congr {
            return Err(14);
        }
        if let Some(&number) = self.numbers.get(&(from, to)) {
            return Ok(number);
        }
        if self.listed.len() >= ROOM {
            return Err(15);
        }
        let number = EqTransIdx::from(self.listed.len());
        self.listed.push((from, to));
        self.numbers.insert((from, to), number);
        Ok(number)
    }
}
