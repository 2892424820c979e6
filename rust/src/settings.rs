//! Which groups are asked for.

use crate::Refusal;
use std::fmt;
use std::str::FromStr;

/// The largest factor.
pub const FACTOR: u32 = 1024;

/// When a clique counts as isolated, by the outside counts of its members: the neighbours not in the set.
///
/// It is shown as its word, and read from its word or its number:
///
/// ```
/// use isolated::{Notion, Refusal};
///
/// assert_eq!(Notion::Max.to_string(), "max");
/// assert_eq!("max".parse(), Ok(Notion::Max));
/// assert_eq!("2".parse(), Ok(Notion::Max));
/// assert_eq!(Notion::try_from(2), Ok(Notion::Max));
/// assert_eq!(Notion::try_from(3), Err(Refusal::Notion));
/// ```
#[derive(Clone, Copy, Debug, PartialEq, Eq, Hash)]
pub enum Notion {
    /// Some member has an outside count less than c.
    Min = 0,
    /// The outside counts sum to less than c times the number of members.
    Avg = 1,
    /// Every member has an outside count less than c.
    Max = 2,
}

/// What a group must not be contained in.
///
/// It is shown as its words, and read from its words or its number:
///
/// ```
/// use isolated::{Kind, Refusal};
///
/// assert_eq!(Kind::MaximalIsolated.to_string(), "maximal isolated");
/// assert_eq!("isolated maximal".parse(), Ok(Kind::IsolatedMaximal));
/// assert_eq!("1".parse(), Ok(Kind::IsolatedMaximal));
/// assert_eq!(Kind::try_from(2), Err(Refusal::Kind));
/// ```
#[derive(Clone, Copy, Debug, PartialEq, Eq, Hash)]
pub enum Kind {
    /// No larger set that contains it is an isolated clique.
    MaximalIsolated = 0,
    /// No larger set that contains it is a clique.
    IsolatedMaximal = 1,
}

/// A notion, a kind and a factor.
///
/// ```
/// use isolated::{Kind, Notion, Settings};
///
/// let settings = Settings::new(Notion::Max, Kind::MaximalIsolated, 2);
/// assert_eq!(settings, Settings { notion: Notion::Max, kind: Kind::MaximalIsolated, c: 2 });
/// assert_eq!(settings.to_string(), "max, maximal isolated, c 2");
/// ```
#[derive(Clone, Copy, Debug, PartialEq, Eq, Hash)]
pub struct Settings {
    /// When a clique counts as isolated.
    pub notion: Notion,
    /// What a group must not be contained in.
    pub kind: Kind,
    /// The factor, from 1 to [`FACTOR`]; another one is refused by each call.
    pub c: u32,
}

impl Settings {
    /// These three; `c` is tested by the call that takes them.
    #[must_use]
    pub const fn new(notion: Notion, kind: Kind, c: u32) -> Settings {
        Settings { notion, kind, c }
    }
}

impl fmt::Display for Settings {
    fn fmt(&self, out: &mut fmt::Formatter<'_>) -> fmt::Result {
        write!(out, "{}, {}, c {}", self.notion, self.kind, self.c)
    }
}

impl Notion {
    /// All notions, in the order of their numbers.
    pub const ALL: [Notion; 3] = [Notion::Min, Notion::Avg, Notion::Max];

    /// The number of document 01.
    ///
    /// ```
    /// assert_eq!(isolated::Notion::Max.number(), 2);
    /// ```
    #[must_use]
    pub const fn number(self) -> u32 {
        self as u32
    }
}

impl fmt::Display for Notion {
    fn fmt(&self, out: &mut fmt::Formatter<'_>) -> fmt::Result {
        out.pad(match self {
            Notion::Min => "min",
            Notion::Avg => "avg",
            Notion::Max => "max",
        })
    }
}

impl FromStr for Notion {
    type Err = ParseNotionError;

    fn from_str(word: &str) -> Result<Notion, ParseNotionError> {
        match word {
            "min" | "0" => Ok(Notion::Min),
            "avg" | "1" => Ok(Notion::Avg),
            "max" | "2" => Ok(Notion::Max),
            _ => Err(ParseNotionError(())),
        }
    }
}

impl TryFrom<u32> for Notion {
    type Error = Refusal;

    fn try_from(number: u32) -> Result<Notion, Refusal> {
        Notion::ALL.into_iter().find(|notion| notion.number() == number).ok_or(Refusal::Notion)
    }
}

impl Kind {
    /// Both kinds, in the order of their numbers.
    pub const ALL: [Kind; 2] = [Kind::MaximalIsolated, Kind::IsolatedMaximal];

    /// The number of document 01.
    ///
    /// ```
    /// assert_eq!(isolated::Kind::IsolatedMaximal.number(), 1);
    /// ```
    #[must_use]
    pub const fn number(self) -> u32 {
        self as u32
    }
}

impl fmt::Display for Kind {
    fn fmt(&self, out: &mut fmt::Formatter<'_>) -> fmt::Result {
        out.pad(match self {
            Kind::MaximalIsolated => "maximal isolated",
            Kind::IsolatedMaximal => "isolated maximal",
        })
    }
}

impl FromStr for Kind {
    type Err = ParseKindError;

    fn from_str(word: &str) -> Result<Kind, ParseKindError> {
        match word {
            "maximal isolated" | "0" => Ok(Kind::MaximalIsolated),
            "isolated maximal" | "1" => Ok(Kind::IsolatedMaximal),
            _ => Err(ParseKindError(())),
        }
    }
}

impl TryFrom<u32> for Kind {
    type Error = Refusal;

    fn try_from(number: u32) -> Result<Kind, Refusal> {
        Kind::ALL.into_iter().find(|kind| kind.number() == number).ok_or(Refusal::Kind)
    }
}

/// A word that names no notion.
#[derive(Clone, Copy, Debug, PartialEq, Eq, Hash)]
pub struct ParseNotionError(());

impl fmt::Display for ParseNotionError {
    fn fmt(&self, out: &mut fmt::Formatter<'_>) -> fmt::Result {
        out.pad("a notion is min or 0, avg or 1, max or 2")
    }
}

impl std::error::Error for ParseNotionError {}

/// A word that names no kind.
#[derive(Clone, Copy, Debug, PartialEq, Eq, Hash)]
pub struct ParseKindError(());

impl fmt::Display for ParseKindError {
    fn fmt(&self, out: &mut fmt::Formatter<'_>) -> fmt::Result {
        out.pad("a kind is 'maximal isolated' or 0, 'isolated maximal' or 1")
    }
}

impl std::error::Error for ParseKindError {}
