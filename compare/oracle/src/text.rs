//! Reads the text of requests. It takes them to be well written; what is not makes it panic.

#[derive(Clone, Copy, Debug, PartialEq, Eq)]
pub enum Kind {
    Basic,
    Complex,
    Custom,
    Force,
}

pub const KINDS: [Kind; 4] = [Kind::Basic, Kind::Complex, Kind::Custom, Kind::Force];

impl Kind {
    pub fn name(self) -> &'static str {
        match self {
            Kind::Basic => "basic",
            Kind::Complex => "complex",
            Kind::Custom => "custom",
            Kind::Force => "force",
        }
    }
}

pub enum TermLine {
    Var(u64),
    App(usize, Vec<usize>),
    Quant(u64, Vec<usize>),
}

pub enum Action {
    Find(Kind, usize, usize),
    Round(Kind),
    Offers(Kind, usize, usize, usize),
}

#[derive(Default)]
pub struct Request {
    pub symbols: Vec<Vec<u8>>,
    pub terms: Vec<TermLine>,
    pub nodes: Vec<usize>,
    pub pattern: usize,
    pub bound_are_nodes: bool,
    pub bound: Vec<usize>,
    pub entries: Vec<(usize, Vec<(usize, usize)>)>,
    pub live: Vec<(usize, usize)>,
    pub by_links: bool,
    pub classes: Vec<(usize, usize, usize)>,
    pub version: Option<(u64, u64, u64)>,
    pub actions: Vec<Action>,
}

type Words<'a> = dyn Iterator<Item = &'a [u8]> + 'a;

fn number(word: &[u8]) -> usize {
    std::str::from_utf8(word).unwrap().parse().unwrap()
}

fn next(words: &mut Words) -> usize {
    number(words.next().unwrap())
}

fn rest(words: &mut Words) -> Vec<usize> {
    words.map(number).collect()
}

fn kind(words: &mut Words) -> Kind {
    let word = words.next().unwrap();
    *KINDS.iter().find(|kind| kind.name().as_bytes() == word).unwrap()
}

fn pair(word: &[u8]) -> (usize, usize) {
    let colon = word.iter().position(|&byte| byte == b':').unwrap();
    (number(&word[..colon]), number(&word[colon + 1..]))
}

fn item(request: &mut Request, first: &[u8], words: &mut Words) {
    match first {
        b"symbol" => request.symbols.push(words.next().unwrap().to_vec()),
        b"var" => request.terms.push(TermLine::Var(next(words) as u64)),
        b"app" => request.terms.push(TermLine::App(next(words), rest(words))),
        b"quant" => request.terms.push(TermLine::Quant(next(words) as u64, rest(words))),
        b"node" => request.nodes.push(next(words)),
        b"pattern" => request.pattern = next(words),
        b"terms" => request.bound = rest(words),
        b"nodes" => {
            request.bound_are_nodes = true;
            request.bound = rest(words);
        }
        b"entry" => request.entries.push((next(words), words.map(pair).collect())),
        b"live" => request.live.push((next(words), next(words))),
        b"class" => request.classes.push((next(words), next(words), next(words))),
        b"link" => {
            request.by_links = true;
            request.classes.push((next(words), next(words), next(words)));
        }
        b"version" => request.version = Some((next(words) as u64, next(words) as u64, next(words) as u64)),
        b"find" => request.actions.push(Action::Find(kind(words), next(words), next(words))),
        b"round" => request.actions.push(Action::Round(kind(words))),
        b"offers" => {
            let action = Action::Offers(kind(words), next(words), next(words), next(words));
            request.actions.push(action);
        }
        // What is recorded of variables follows from the terms.
        b"mark" => (),
        _ => panic!("an unknown line"),
    }
}

fn is_space(byte: &u8) -> bool {
    matches!(byte, b' ' | b'\t' | 0x0c | b'\r')
}

/// The words of a line without its comment.
fn words_of(line: &[u8]) -> impl Iterator<Item = &[u8]> {
    let line = line.split(|&byte| byte == b'#').next().unwrap();
    line.split(is_space).filter(|word| !word.is_empty())
}

/// The lines of each request, without those that begin and end it.
pub fn split(bytes: &[u8]) -> Vec<Vec<&[u8]>> {
    let mut requests = Vec::new();
    for line in bytes.split(|&byte| byte == b'\n') {
        match words_of(line).next() {
            None | Some(b"end") => (),
            Some(b"request") => requests.push(Vec::new()),
            Some(_) => requests.last_mut().unwrap().push(line),
        }
    }
    requests
}

pub fn read(lines: &[&[u8]]) -> Request {
    let mut request = Request::default();
    for line in lines {
        let mut words = words_of(line);
        let first = words.next().unwrap();
        item(&mut request, first, &mut words);
    }
    request
}
