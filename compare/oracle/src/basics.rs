//! Small types that smt-scope has from other crates.

use std::collections::{HashMap, HashSet, TryReserveError};
use std::num::ParseIntError;
use std::ops::{Deref, Index};

pub type FxHashMap<K, V> = HashMap<K, V>;
pub type FxHashSet<K> = HashSet<K>;
pub type Result<T> = core::result::Result<T, Error>;

/// The errors that smt-scope's files name, and those of our host.
#[derive(Debug)]
pub enum Error {
    InvalidVar(ParseIntError),
    InvalidIdHash(String),
    InvalidIdNumber(ParseIntError),
    InvalidFingerprint(ParseIntError),
    Allocation(TryReserveError),
    /// The host made no equality: the number of the refusal, and which pair of the booking it was.
    Refused { number: u32, pair: usize },
}

impl From<TryReserveError> for Error {
    fn from(error: TryReserveError) -> Self {
        Self::Allocation(error)
    }
}

/// A number below u32::MAX.
#[derive(Debug, Clone, Copy, PartialEq, Eq, PartialOrd, Ord, Hash)]
pub struct NonMaxU32(u32);

impl NonMaxU32 {
    pub const ZERO: Self = Self(0);
    pub const fn new(value: u32) -> Option<Self> {
        if value == u32::MAX {
            None
        } else {
            Some(Self(value))
        }
    }
    pub const fn get(self) -> u32 {
        self.0
    }
}

impl std::str::FromStr for NonMaxU32 {
    type Err = ParseIntError;
    fn from_str(text: &str) -> core::result::Result<Self, ParseIntError> {
        match Self::new(text.parse()?) {
            Some(number) => Ok(number),
            // The error of a number that is one too large.
            None => Err("4294967296".parse::<u32>().unwrap_err()),
        }
    }
}

impl std::fmt::Display for NonMaxU32 {
    fn fmt(&self, f: &mut std::fmt::Formatter) -> std::fmt::Result {
        self.0.fmt(f)
    }
}

/// The key of a name in a table of names.
#[derive(Debug, Clone, Copy, PartialEq, Eq, Hash)]
pub struct Spur(u32);

#[derive(Debug, Clone, Copy, PartialEq, Eq, Hash)]
pub struct IString(pub Spur);

impl Deref for IString {
    type Target = Spur;
    fn deref(&self) -> &Spur {
        &self.0
    }
}

#[derive(Debug, Default)]
pub struct StringTable {
    names: Vec<String>,
    keys: HashMap<String, Spur>,
}

impl StringTable {
    pub fn get_or_intern(&mut self, name: impl AsRef<str>) -> Spur {
        let name = name.as_ref();
        if let Some(&key) = self.keys.get(name) {
            return key;
        }
        let key = Spur(self.names.len() as u32);
        self.names.push(name.to_string());
        self.keys.insert(name.to_string(), key);
        key
    }
}

impl Index<Spur> for StringTable {
    type Output = str;
    fn index(&self, key: Spur) -> &str {
        &self.names[key.0 as usize]
    }
}
