// This file is taken into one module with smt-scope's blame.rs. It changes nothing of what that does.

/// What happened in a round, in order.
#[derive(Debug)]
pub enum Event {
    /// A pass began: the rewriter of the next waiting entry was made.
    Pass,
    /// The next open part was tried.
    Tried(Outcome),
}

#[derive(Debug)]
pub enum Outcome {
    Missed,
    /// Found, and an equality made for each of so many pairs.
    Made(usize),
    /// Found, and an equality could not be made.
    Failed,
}

/// A rewriter that does everything as `E` does, and notes what happens.
pub struct Watched<E>(core::marker::PhantomData<E>);

impl<E: EqRewriter> EqRewriter for Watched<E> {
    type Data<'a> = E::Data<'a>;
    type EqRef = E::EqRef;
    const FORBID_DUPS: bool = E::FORBID_DUPS;

    fn rewrite(
        data: &mut Self::Data<'_>,
        parser: &mut Z3Parser,
        match_: &MatchKind,
        blame: ENodeIdx,
        subpat: TermIdx,
    ) -> Option<Result<Blame>> {
        parser.egraph.pairs_taken = 0;
        let fix = E::rewrite(data, parser, match_, blame, subpat);
        let outcome = match &fix {
            None => Outcome::Missed,
            Some(Ok(fix)) => Outcome::Made(fix.equalities.len()),
            Some(Err(_)) => Outcome::Failed,
        };
        parser.events.borrow_mut().push(Event::Tried(outcome));
        fix
    }

    fn new<'a>(
        parser: &Z3Parser,
        eqs: &'a [(ENodeIdx, ENodeIdx)],
        used_eqs: impl Iterator<Item = EqTransIdx> + Clone,
        impossible: &'a [(usize, ENodeIdx, BlamedEqsParse)],
    ) -> Self::Data<'a> {
        parser.events.borrow_mut().push(Event::Pass);
        E::new(parser, eqs, used_eqs, impossible)
    }

    fn reset(parser: &Z3Parser, data: &mut Self::Data<'_>) {
        E::reset(parser, data)
    }
    fn coupling() -> Coupling {
        E::coupling()
    }
    fn possible_rewrite_count(
        data: &mut Self::Data<'_>,
        parser: &Z3Parser,
        blame: TermIdx,
        subpat: TermIdx,
    ) -> Option<(ENodeIdx, usize, Self::EqRef)> {
        E::possible_rewrite_count(data, parser, blame, subpat)
    }
    fn possible_rewrite(
        data: &mut Self::Data<'_>,
        parser: &Z3Parser,
        blame: TermIdx,
        subpat: TermIdx,
        idx: usize,
        eq_ref: &Self::EqRef,
    ) -> ENodeIdx {
        E::possible_rewrite(data, parser, blame, subpat, idx, eq_ref)
    }
}

impl BlameFinder<'_> {
    pub(crate) fn the_parser(&mut self) -> &mut Z3Parser {
        self.parser
    }
    pub(crate) fn waiting(&self) -> Vec<usize> {
        self.blamed.iter().map(|(entry, ..)| *entry).collect()
    }
    pub(crate) fn set_aside(&self) -> Vec<usize> {
        self.impossible.iter().map(|(entry, ..)| *entry).collect()
    }
    pub(crate) fn slots(&self) -> &[Blame] {
        &self.result
    }
    pub(crate) fn order(&self) -> bool {
        self.correct_order
    }

    /// One round. Where smt-scope hands its table out, this puts it back, so that it can still be read.
    pub(crate) fn watched_round<E: EqRewriter>(&mut self) -> (Result<()>, Vec<Event>) {
        self.parser.events.borrow_mut().clear();
        let answer = match self.find_blamed::<Watched<E>>() {
            Ok(Some((_, result))) => {
                self.result = result;
                Ok(())
            }
            Ok(None) => Ok(()),
            Err(error) => Err(error),
        };
        (answer, self.parser.events.take())
    }

    /// The pairs that one waiting entry and one part give, with the rewriter that a round would make.
    pub(crate) fn lone_find<E: EqRewriter>(&self, part: usize, entry: usize) -> Option<BlamedEqsParse> {
        let (_, node, eqs) = self.blamed.iter().find(|(number, ..)| *number == entry).unwrap();
        let finished = self.result.iter().filter_map(Blame::ok);
        let used_eqs = finished.flat_map(|b| b.equalities.iter().copied());
        let mut data = E::new(self.parser, eqs, used_eqs, &self.impossible);
        let subpat = self.parser[self.pat].child_ids[part];
        E::check_match(&mut data, self.parser, self.match_, *node, subpat)
    }
}

/// What a rewriter over some pairs offers first, with nothing set aside and nothing booked.
pub(crate) fn first_offers<E: EqRewriter>(
    parser: &Z3Parser,
    eqs: &[(ENodeIdx, ENodeIdx)],
    term: TermIdx,
    subpat: TermIdx,
) -> Option<(ENodeIdx, Vec<ENodeIdx>)> {
    let mut data = E::new(parser, eqs, core::iter::empty(), &[]);
    E::reset(parser, &mut data);
    let (from, count, eq_ref) = E::possible_rewrite_count(&mut data, parser, term, subpat)?;
    let offer = |i| E::possible_rewrite(&mut data, parser, term, subpat, i, &eq_ref);
    Some((from, (0..count).map(offer).collect()))
}
