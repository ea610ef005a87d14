//! Why there is no result.

use std::error::Error;
use std::fmt;

// The enum of refusals, whose names are those that the program writes.
macro_rules! refusals {
    (
        unreadable {
            $($(#[$unreadable_doc:meta])* $unreadable:ident = $unreadable_name:literal,)*
        }
        refused {
            $($(#[$refused_doc:meta])* $refused:ident = $refused_name:literal,)*
        }
    ) => {
        /// Why a text has no result. `docs/PROGRAM.md` and `docs/STARK.md` say when each is
        /// returned, and which comes first.
        #[derive(Clone, Copy, Debug, PartialEq, Eq, Hash)]
        #[non_exhaustive]
        pub enum Refusal {
            $($(#[$unreadable_doc])* $unreadable,)*
            $($(#[$refused_doc])* $refused,)*
            /// The library returned a line that it never should: crate and library don't fit.
            Unknown,
        }

        impl Refusal {
            /// All refusals but `Unknown`.
            pub const ALL: &'static [Refusal] = &[
                $(Refusal::$unreadable,)*
                $(Refusal::$refused,)*
            ];

            /// The name that the program writes.
            pub fn name(self) -> &'static str {
                match self {
                    $(Refusal::$unreadable => $unreadable_name,)*
                    $(Refusal::$refused => $refused_name,)*
                    Refusal::Unknown => "unknown",
                }
            }

            /// Whether the text can't be read as an input of the call. Otherwise it is refused.
            pub fn is_unreadable(self) -> bool {
                matches!(self, $(Refusal::$unreadable)|*)
            }
        }
    };
}

refusals! {
    unreadable {
        /// The program's arguments are no command. No call of this crate returns this.
        Usage = "usage",
        /// Reading the input fails. No call of this crate returns this.
        Input = "input",
        /// The text isn't JSON, or is nested too deeply.
        Json = "json",
        /// A key is missing.
        MissingKey = "MissingKey",
        /// There is a further key.
        UnknownKey = "UnknownKey",
        /// A value is of another kind.
        WrongKind = "WrongKind",
        /// A number is negative or too large.
        OutOfRange = "OutOfRange",
        /// A digest isn't 64 hexadecimal digits.
        BadHex = "BadHex",
    }

    refused {
        /// The call ran out of memory. This is no verdict.
        Memory = "Memory",
        /// The text's parameters aren't those that the caller gave.
        ParametersDiffer = "ParametersDiffer",
        /// A domain is too small.
        DomainTooSmall = "DomainTooSmall",
        /// A domain is too large.
        DomainTooLarge = "DomainTooLarge",
        /// The shift isn't a point of the circle.
        NotOnCircle = "NotOnCircle",
        /// Rows differ in length, or one is empty.
        RaggedRows = "RaggedRows",
        /// The number of rows isn't a power of two, or exceeds the number of points.
        BadHeight = "BadHeight",
        /// The number of a matrix's rows isn't a power of two.
        HeightNotPowerOfTwo = "HeightNotPowerOfTwo",
        /// A matrix has too few rows, or a shape leaves nothing to fold.
        HeightTooSmall = "HeightTooSmall",
        /// A height exceeds what can be committed to, or the circle's group.
        HeightTooLarge = "HeightTooLarge",
        /// There is no matrix.
        NoCommittedMatrices = "NoCommittedMatrices",
        /// Nothing can be proved under these parameters.
        UnfitParameters = "UnfitParameters",
        /// A matrix is opened at a point of the domain that it is committed on.
        PointOnDomain = "PointOnDomain",
        /// No witness passes a proof of work.
        NoGrindingWitness = "NoGrindingWitness",
        /// The greatest committed height exceeds the circle's group.
        GlobalMaxHeightTooLarge = "GlobalMaxHeightTooLarge",
        /// A proof of work has too many bits.
        UnsupportedGrinding = "UnsupportedGrinding",
        /// `num_queries` is 0.
        ZeroQueries = "ZeroQueries",
        /// `log_blowup` is 0.
        ZeroBlowup = "ZeroBlowup",
        /// `max_log_arity` isn't 1.
        UnsupportedFoldingCap = "UnsupportedFoldingCap",
        /// The proof has a wrong number of rounds.
        CommitRoundCountMismatch = "CommitRoundCountMismatch",
        /// The proof has a wrong number of the rounds' witnesses.
        CommitPowWitnessCountMismatch = "CommitPowWitnessCountMismatch",
        /// The proof has a wrong number of opened rounds.
        CommitPhaseOpeningsCountMismatch = "CommitPhaseOpeningsCountMismatch",
        /// A round is opened at a wrong number of queries.
        CommitPhaseQueryCountMismatch = "CommitPhaseQueryCountMismatch",
        /// A query of a round has a wrong number of siblings.
        SiblingValuesLengthMismatch = "SiblingValuesLengthMismatch",
        /// The final polynomial has a wrong number of coefficients.
        FinalPolyLengthMismatch = "FinalPolyLengthMismatch",
        /// A witness isn't 0 although its proof of work has no bits.
        NonCanonicalPowWitness = "NonCanonicalPowWitness",
        /// A claimed coordinate belongs to no point.
        PointAtInfinity = "PointAtInfinity",
        /// A witness doesn't pass its proof of work.
        InvalidPowWitness = "InvalidPowWitness",
        /// The opened rows or siblings don't have the shape of the claims.
        InputShapeError = "InputShapeError",
        /// A matrix is claimed at no point.
        MatrixWithoutOpeningPoints = "MatrixWithoutOpeningPoints",
        /// The rows of a batch don't authenticate.
        InputMmcsError = "InputMmcsError",
        /// The pairs of the first layer don't authenticate.
        FirstLayerMmcsError = "FirstLayerMmcsError",
        /// The pairs of a round don't authenticate.
        CommitPhaseMmcsError = "CommitPhaseMmcsError",
        /// A claimed point is queried.
        OpeningPointMatchesQueryPoint = "OpeningPointMatchesQueryPoint",
        /// A domain leaves nothing to fold after the first layer.
        UnconsumedReducedOpenings = "UnconsumedReducedOpenings",
        /// A query ends in another value than the final polynomial's.
        FinalPolyMismatch = "FinalPolyMismatch",
        /// An AIR has no column.
        NoColumns = "NoColumns",
        /// The length of a periodic column isn't a power of two.
        PeriodicLength = "PeriodicLength",
        /// A node of an AIR is computed of one that isn't earlier.
        NodeOutOfOrder = "NodeOutOfOrder",
        /// A node reads a column that the AIR doesn't have.
        ColumnOutOfRange = "ColumnOutOfRange",
        /// A node reads a periodic column that the AIR doesn't have.
        PeriodicOutOfRange = "PeriodicOutOfRange",
        /// A node reads a public value that the AIR doesn't have.
        PublicOutOfRange = "PublicOutOfRange",
        /// The degree of a node is too high.
        DegreeTooHigh = "DegreeTooHigh",
        /// An AIR has no constraint.
        NoConstraints = "NoConstraints",
        /// A constraint is of a node that the AIR doesn't have.
        ConstraintOutOfRange = "ConstraintOutOfRange",
        /// There are more or fewer public values than the AIR has.
        PublicValuesMismatch = "PublicValuesMismatch",
        /// The rows don't have the AIR's width.
        WidthMismatch = "WidthMismatch",
        /// A periodic column has more entries than there are rows.
        PeriodTooLong = "PeriodTooLong",
        /// A proof has no value of the row for each column.
        TraceLocalLength = "TraceLocalLength",
        /// A proof has no value of the next row for each column.
        TraceNextLength = "TraceNextLength",
        /// A proof has a wrong number of the quotient's chunks.
        QuotientChunkCount = "QuotientChunkCount",
        /// A chunk of the quotient doesn't have three values.
        QuotientChunkLength = "QuotientChunkLength",
        /// The drawn point can't be opened.
        UnfitPoint = "UnfitPoint",
        /// The constraints don't fit the quotient at the drawn point.
        OodEvaluationMismatch = "OodEvaluationMismatch",
    }
}

impl Refusal {
    // The refusal that a line of the library names, without its newline.
    pub(crate) fn of_line(line: &str) -> Refusal {
        let said = |refusal: &&Refusal| refusal.line() == line;
        Refusal::ALL
            .iter()
            .find(said)
            .copied()
            .unwrap_or(Refusal::Unknown)
    }

    // The line that the program writes, without its newline.
    fn line(self) -> String {
        let kind = if self.is_unreadable() {
            "unreadable"
        } else {
            "refused"
        };
        format!("{{\"{kind}\":\"{}\"}}", self.name())
    }
}

impl fmt::Display for Refusal {
    fn fmt(&self, formatter: &mut fmt::Formatter<'_>) -> fmt::Result {
        let kind = if self.is_unreadable() {
            "unreadable"
        } else {
            "refused"
        };
        write!(formatter, "{kind}: {}", self.name())
    }
}

impl Error for Refusal {}
