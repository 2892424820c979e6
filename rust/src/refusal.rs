//! Why a call was turned back.

use std::fmt;

/// Declares the refusals: of each its name, its number, and its sentence, which is its documentation too.
macro_rules! refusals {
    ($($(#[$more:meta])* $name:ident = $number:literal, $sentence:literal;)*) => {
        /// Why a call was turned back, with the numbers of document 01, which also fixes which one of several faults is
        /// told.
        ///
        /// Its `Display` is a sentence. Later requests bring further numbers, so a `match` has to have an arm for them.
        #[derive(Clone, Copy, Debug, PartialEq, Eq, Hash)]
        #[non_exhaustive]
        pub enum Refusal {
            $(#[doc = concat!($sentence, ".")] $(#[$more])* $name = $number,)*
        }

        impl Refusal {
            /// All refusals, in the order of their numbers.
            pub const ALL: &'static [Refusal] = &[$(Refusal::$name),*];

            /// What is wrong, as a sentence without its full stop: line for line that of `docs/refusals.tsv`, which also
            /// says what to do about it.
            ///
            /// ```
            /// use isolated::Refusal;
            /// assert_eq!(Refusal::Symmetry.sentence(), "the table is not symmetric");
            /// ```
            #[must_use]
            pub const fn sentence(self) -> &'static str {
                match self {
                    $(Refusal::$name => $sentence,)*
                }
            }
        }
    };
}

refusals! {
    Vertices = 1, "n is over 1,024";
    TableLength = 2, "the table's length is not that for n vertices";
    /// Only [`crate::pack`] tells this.
    TableByte = 3, "a table byte is neither 0 nor 1";
    Diagonal = 4, "a vertex is joined to itself";
    Symmetry = 5, "the table is not symmetric";
    /// [`crate::Notion`] has no such value: only its `TryFrom<u32>` and the calls of [`crate::raw`] tell this.
    Notion = 6, "the notion is over 2";
    /// [`crate::Kind`] has no such value: only its `TryFrom<u32>` and the calls of [`crate::raw`] tell this.
    Kind = 7, "the kind is over 1";
    Factor = 8, "the factor c is 0 or over 1,024";
    /// [`crate::Groups`] tells this where its room is for fewer than n vertices.
    Length = 9, "the position's or the set's length is not n";
    Work = 10, "the work slice has fewer than 8 * n entries";
    SetByte = 11, "a set byte is over 1";
    PositionByte = 21, "a position byte is over 2";
    PositionOrder = 22, "a decided rank stands after an open one";
    PositionDead = 23, "the position with its last decided rank opened is dead";
    LineStart = 31, "a line is empty, starts with another letter than c, p or e, or has no space after it";
    Form = 32, "a word or a line does not have the form asked for";
    NoPLine = 33, "an e line stands before the p line, or there is no p line";
    SecondPLine = 34, "there is a second p line";
    TextVertices = 35, "N is over 1,024";
    Range = 36, "U or V is 0 or over N";
    SameVertex = 37, "U equals V";
    /// A repeated pair is read, as one edge. The name is kept, so that programs that have it still compile.
    RepeatedPair = 38, "the pair stood before, in this direction or the other (no call returns this any more)";
    EdgeCount = 39, "M differs from the number of e lines";
    TableShort = 40, "the table has fewer than N * N bytes";
    /// Tested right after [`Refusal::Symmetry`], before all others.
    Degrees = 42, "a degree is not the ones in its row, or the list of degrees is not n long";
    /// [`crate::Graph::asks`] tells this too, of a set.
    NoVertex = 43, "a vertex is not below n";
    EqualEnds = 44, "both ends of the pair are the same vertex";
    /// Tested right after [`Refusal::TableLength`], of a packed table alone.
    StrayBit = 45, "a row of the packed table has a bit at or past n";
}

impl Refusal {
    /// The number of document 01.
    ///
    /// ```
    /// use isolated::Refusal;
    /// assert_eq!(Refusal::Symmetry.number(), 5);
    /// ```
    #[must_use]
    pub const fn number(self) -> u32 {
        self as u32
    }

    /// The refusal of a number, `None` where no refusal here has it: 41, a text that is too long, is the program's alone.
    ///
    /// ```
    /// use isolated::Refusal;
    /// assert_eq!(Refusal::of_number(39), Some(Refusal::EdgeCount));
    /// assert_eq!(Refusal::of_number(0), None);
    /// ```
    #[must_use]
    pub fn of_number(number: u32) -> Option<Refusal> {
        Refusal::ALL.iter().copied().find(|refusal| refusal.number() == number)
    }

    /// What the library told: nothing for 0. It tells no other number than those above.
    pub(crate) fn told(number: u32) -> Result<(), Refusal> {
        if number == 0 {
            return Ok(());
        }
        Err(Refusal::of_number(number).expect("the library tells only refusals that document 01 names"))
    }
}

impl fmt::Display for Refusal {
    fn fmt(&self, out: &mut fmt::Formatter<'_>) -> fmt::Result {
        out.pad(self.sentence())
    }
}

impl std::error::Error for Refusal {}
