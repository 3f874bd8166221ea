//! Builds smt-scope's tables from a request, runs its rounds, and writes the lines to compare.

use std::cell::{Cell, RefCell};
use std::collections::HashMap;

use super::blame::{first_offers, BasicEq, BlameFinder, ComplexEq, CustomEq, Event, ForceEq, Outcome};
use super::{egraph::EGraph, Stack, VersionInfo, Z3Parser};
use crate::items::*;
use crate::text::{Action, Kind, Request, TermLine, KINDS};
use crate::{Error, FxHashMap, IString, NonMaxU32, StringTable};

/// Counts over all requests.
#[derive(Debug, Default)]
pub struct Tally {
    pub panics: u64,
    pub rounds: u64,
    pub finds: u64,
    pub makings: u64,
    pub live_asked: u64,
}

/// The lines of one request. They are pushed as they come about, so those before a panic remain.
pub fn answer(request: &Request, listed: bool, lines: &mut Vec<String>, tally: &mut Tally) {
    let mut parser = parser_of(request);
    let match_ = match_of(request);
    let entries = request.entries.iter().enumerate();
    let blamed = entries.map(|(j, (node, pairs))| (j, ENodeIdx::from(*node), nodes_of(pairs))).collect();
    let finder = BlameFinder::new(&mut parser, &match_, blamed, TermIdx::from(request.pattern)).unwrap();
    let entry_of = vec![None; finder.slots().len()];
    let mut run = Run { request, finder, entry_of, lines, tally };
    run.actions();
    run.tables();
    if listed {
        let count = run.finder.the_parser().egraph.listed.len();
        run.lines.push(format!("listed {count}"));
    }
    let egraph = &run.finder.the_parser().egraph;
    run.tally.makings += egraph.makings;
    run.tally.live_asked += egraph.live_asked.get();
}

struct Run<'a> {
    request: &'a Request,
    finder: BlameFinder<'a>,
    /// For each explained part, the entry that explains it. smt-scope keeps only the entry's node.
    entry_of: Vec<Option<usize>>,
    lines: &'a mut Vec<String>,
    tally: &'a mut Tally,
}

impl Run<'_> {
    fn actions(&mut self) {
        for action in &self.request.actions {
            match *action {
                Action::Find(kind, part, entry) => self.find(kind, part, entry),
                Action::Round(kind) => self.round(kind),
                Action::Offers(kind, entry, term, subpat) => self.offers(kind, entry, term, subpat),
            }
        }
        if self.request.actions.iter().all(|action| matches!(action, Action::Offers(..))) {
            for kind in KINDS {
                if !self.open_parts().is_empty() {
                    self.round(kind);
                }
            }
        }
    }

    fn open_parts(&self) -> Vec<usize> {
        let slots = self.finder.slots().iter().enumerate();
        slots.filter(|(_, slot)| slot.coupling == Coupling::Error).map(|(part, _)| part).collect()
    }

    fn find(&mut self, kind: Kind, part: usize, entry: usize) {
        let head = format!("find {} {part} {entry}:", kind.name());
        let rest = if !self.open_parts().contains(&part) {
            format!("refused 7 finder part {part}")
        } else if !self.finder.waiting().contains(&entry) {
            format!("refused 8 finder entry {entry}")
        } else {
            self.tally.finds += 1;
            let found = match kind {
                Kind::Basic => self.finder.lone_find::<BasicEq>(part, entry),
                Kind::Complex => self.finder.lone_find::<ComplexEq>(part, entry),
                Kind::Custom => self.finder.lone_find::<CustomEq>(part, entry),
                Kind::Force => self.finder.lone_find::<ForceEq>(part, entry),
            };
            found.map_or("missed".to_string(), |pairs| pairs_text(pairs.into_iter()))
        };
        self.lines.push(format!("{head} {rest}"));
    }

    fn round(&mut self, kind: Kind) {
        let head = format!("round {}:", kind.name());
        let mut open = self.open_parts();
        if open.is_empty() {
            self.lines.push(format!("{head} refused 11 round"));
            return;
        }
        self.tally.rounds += 1;
        let before = self.finder.waiting();
        let (answer, events) = match kind {
            Kind::Basic => self.finder.watched_round::<BasicEq>(),
            Kind::Complex => self.finder.watched_round::<ComplexEq>(),
            Kind::Custom => self.finder.watched_round::<CustomEq>(),
            Kind::Force => self.finder.watched_round::<ForceEq>(),
        };
        let aside = self.finder.set_aside();
        let passed: Vec<usize> = before.into_iter().filter(|entry| !aside.contains(entry)).collect();
        let told = self.replay(&events, &passed, &mut open);
        let rest = match answer {
            Ok(()) => format!("parts {} pairs {}", told.parts, told.pairs),
            Err(Error::Refused { number, pair }) => {
                let (part, entry) = told.failed.unwrap();
                format!("refused {number} host part {part} entry {entry} pair {pair}")
            }
            Err(error) => panic!("unexpected error {error:?}"),
        };
        self.lines.push(format!("{head} {rest}"));
    }

    fn offers(&mut self, kind: Kind, entry: usize, term: usize, subpat: usize) {
        let head = format!("offers {} {entry} {term} {subpat}:", kind.name());
        let Some((_, pairs)) = self.request.entries.get(entry) else {
            self.lines.push(format!("{head} refused 8 finder entry {entry}"));
            return;
        };
        let (pairs, term, subpat) = (nodes_of(pairs), TermIdx::from(term), TermIdx::from(subpat));
        let parser = self.finder.the_parser();
        let answer = match kind {
            Kind::Basic => first_offers::<BasicEq>(parser, &pairs, term, subpat),
            Kind::Complex => first_offers::<ComplexEq>(parser, &pairs, term, subpat),
            Kind::Custom => first_offers::<CustomEq>(parser, &pairs, term, subpat),
            Kind::Force => first_offers::<ForceEq>(parser, &pairs, term, subpat),
        };
        // Where ForceEq has nothing to offer it may answer with a count of 0.
        let rest = match answer {
            Some((from, tos)) if !tos.is_empty() => {
                let tos: String = tos.into_iter().map(|to| format!(" {}", usize::from(to))).collect();
                format!("from {} to{tos}", usize::from(from))
            }
            _ => "nothing".to_string(),
        };
        self.lines.push(format!("{head} {rest}"));
    }

    /// Reads off the events which entry was tried on which part: the passes are those of the waiting
    /// entries in order, and each tries the parts that are open when it begins, in order.
    fn replay(&mut self, events: &[Event], passed: &[usize], open: &mut Vec<usize>) -> Told {
        let mut told = Told::default();
        let (mut passes, mut tried, mut found) = (0, 0, false);
        for event in events {
            let Event::Tried(outcome) = event else {
                open.retain(|part| self.entry_of[*part].is_none());
                (passes, tried, found) = (passes + 1, 0, false);
                continue;
            };
            let (part, entry) = (open[tried], passed[passes - 1]);
            tried += 1;
            self.tally.finds += 1;
            match outcome {
                Outcome::Missed => (),
                // The second find of a pass is not kept.
                _ if found => (),
                Outcome::Made(pairs) => {
                    found = true;
                    self.entry_of[part] = Some(entry);
                    told.parts += 1;
                    told.pairs += pairs;
                }
                Outcome::Failed => {
                    found = true;
                    told.failed = Some((part, entry));
                }
            }
        }
        self.check_replay();
        told
    }

    /// What was read off the events has to agree with smt-scope's own table.
    fn check_replay(&self) {
        for (slot, entry) in self.finder.slots().iter().zip(&self.entry_of) {
            match entry {
                None => assert_eq!(slot.coupling, Coupling::Error),
                Some(entry) => {
                    assert_ne!(slot.coupling, Coupling::Error);
                    assert_eq!(usize::from(slot.enode), self.request.entries[*entry].0);
                }
            }
        }
    }

    fn tables(&mut self) {
        for part in 0..self.entry_of.len() {
            let line = self.slot_line(part);
            self.lines.push(line);
        }
        self.lines.push(format!("order {}", self.finder.order()));
        let aside: String = self.finder.set_aside().iter().map(|entry| format!(" {entry}")).collect();
        self.lines.push(format!("aside{aside}"));
    }

    fn slot_line(&mut self, part: usize) -> String {
        let Some(entry) = self.entry_of[part] else {
            return format!("part {part}: open");
        };
        let slot = self.finder.slots()[part].clone();
        let parser = self.finder.the_parser();
        let pairs = pairs_text(slot.equalities.iter().map(|&eq| parser.from_to(eq)));
        format!("part {part}: {:?} entry {entry} node {} {pairs}", slot.coupling, usize::from(slot.enode))
    }
}

#[derive(Default)]
struct Told {
    parts: usize,
    pairs: usize,
    failed: Option<(usize, usize)>,
}

fn pairs_text(pairs: impl Iterator<Item = (ENodeIdx, ENodeIdx)>) -> String {
    let pairs: String = pairs.map(|(from, to)| format!(" {}:{}", usize::from(from), usize::from(to))).collect();
    format!("pairs{pairs}")
}

// smt-scope's tables

fn nodes_of(pairs: &[(usize, usize)]) -> Vec<(ENodeIdx, ENodeIdx)> {
    pairs.iter().map(|&(from, to)| (from.into(), to.into())).collect()
}

fn parser_of(request: &Request) -> Z3Parser {
    let mut strings = StringTable::default();
    let symbols: Vec<IString> = request.symbols.iter().map(|name| symbol_of(&mut strings, name)).collect();
    let terms = terms_of(request, &symbols);
    let egraph = egraph_of(request, &terms);
    Z3Parser {
        version_info: VersionInfo(request.version),
        terms,
        strings,
        egraph,
        stack: Stack,
        events: RefCell::default(),
    }
}

/// A name may be any bytes, and smt-scope's are text. One letter for each byte keeps them apart.
fn symbol_of(strings: &mut StringTable, name: &[u8]) -> IString {
    let text: String = name.iter().map(|&byte| byte as char).collect();
    IString(strings.get_or_intern(text))
}

fn terms_of(request: &Request, symbols: &[IString]) -> Vec<Term> {
    let mut large = Vec::new();
    let mut terms: Vec<Term> = Vec::with_capacity(request.terms.len());
    for line in &request.terms {
        let (kind, children) = match line {
            TermLine::Var(number) => (TermKind::Var(small(*number, &mut large)), &[][..]),
            TermLine::App(symbol, children) => (TermKind::App(symbols[*symbol]), &children[..]),
            TermLine::Quant(number, children) => {
                let number = small(*number, &mut large).get() as usize;
                (TermKind::Quant(QuantIdx::from(number)), &children[..])
            }
        };
        let children = children.iter().map(|&child| TermIdx::from(child)).collect();
        let term = Term::new(TermId::default(), kind, children, |child| &terms[usize::from(child)]);
        terms.push(term);
    }
    terms
}

/// A number of a variable or quantifier in 32 bits. Large ones stand for themselves only by being apart.
fn small(number: u64, large: &mut Vec<u64>) -> NonMaxU32 {
    const HALF: u32 = 1 << 31;
    if number < HALF.into() {
        return NonMaxU32::new(number as u32).unwrap();
    }
    let place = large.iter().position(|&other| other == number).unwrap_or_else(|| {
        large.push(number);
        large.len() - 1
    });
    NonMaxU32::new(HALF + place as u32).unwrap()
}

fn match_of(request: &Request) -> MatchKind {
    let (quant, pattern) = (QuantIdx::from(0), PatternIdx::from(0));
    let bound = request.bound.iter();
    if request.bound_are_nodes {
        let bound_terms = bound.map(|&node| ENodeIdx::from(node)).collect();
        MatchKind::Quantifier { quant, pattern, bound_terms }
    } else {
        let bound_terms = bound.map(|&term| TermIdx::from(term)).collect();
        MatchKind::Axiom { axiom: quant, pattern, bound_terms }
    }
}

fn egraph_of(request: &Request, terms: &[Term]) -> EGraph {
    EGraph {
        enodes: request.nodes.iter().map(|&owner| enode(owner)).collect(),
        live: live_of(request, terms),
        loose: classes_of(request, |(_, loose, _)| *loose),
        strict: classes_of(request, |(_, _, strict)| *strict),
        listed: Vec::new(),
        numbers: HashMap::new(),
        pairs_taken: 0,
        makings: 0,
        live_asked: Cell::new(0),
    }
}

fn enode(owner: usize) -> ENode {
    ENode {
        frame: StackIdx::from(0),
        blame: ENodeBlame::Unknown,
        owner: TermIdx::from(owner),
        z3_generation: NonMaxU32::ZERO,
        equalities: Vec::new(),
        transitive: FxHashMap::default(),
    }
}

/// The last line for a term counts, and only if the term is closed and owns the node.
fn live_of(request: &Request, terms: &[Term]) -> Vec<Option<ENodeIdx>> {
    let mut live = vec![None; terms.len()];
    for &(term, node) in &request.live {
        if term < terms.len() {
            let good = terms[term].has_var() == Some(false) && request.nodes.get(node) == Some(&term);
            live[term] = good.then(|| ENodeIdx::from(node));
        }
    }
    live
}

/// A number for the class of each node: that of its lowest node.
fn classes_of(request: &Request, column: impl Fn(&(usize, usize, usize)) -> usize) -> Vec<usize> {
    let count = request.nodes.len();
    let mut given = vec![None; count];
    for line in &request.classes {
        if line.0 < count {
            given[line.0] = Some(column(line));
        }
    }
    let mut lowest: HashMap<usize, usize> = HashMap::new();
    let mut classes: Vec<usize> = Vec::with_capacity(count);
    for node in 0..count {
        let class = match given[node] {
            Some(link) if request.by_links && link < node => classes[link],
            Some(class) if !request.by_links && class < count => *lowest.entry(class).or_insert(node),
            _ => node,
        };
        classes.push(class);
    }
    classes
}
