//! The wrong variants of the program, one switch each.

/// What is wrong with a variant. `None` is the true program.
#[derive(Clone, Copy, Debug, PartialEq, Eq)]
pub enum Fault {
    None,
    /// The saddle rule of lines heading S is used for every heading.
    SaddleSouthOnly,
    /// Equality at the saddle turns right on one entry and left on the other.
    EqualityRightOnce,
    /// Equality at the saddle always turns right.
    EqualityRight,
    /// A lead must head S.
    LeadsSouthOnly,
    /// Two crossings of a row are compared by their columns only.
    ColumnsOnly,
    /// Only lines of the same level can be around a line.
    OwnLevelOnly,
    /// List and tree look for refusal 5 before those of the border.
    RefusalsSwapped,
    /// A border sample is held against the sample before it, not against the first.
    UnlikeBefore,
    /// The last border sample that differs is told, not the first.
    LastHot,
    /// A border sample that differs is told without its place.
    HotWithoutPlace,
    /// A corner of the border counts as its column.
    CornerAsColumn,
    /// The numbers of the left and the right column are exchanged.
    SidesExchanged,
    /// Room is looked at before words: 9, 15 and 6 before 8.
    RoomBeforeWords,
    /// Membership looks for the line before it looks at the words.
    LineBeforeWords,
    /// Piece looks for a crossed edgel with a clamped cell before it refuses the cell.
    CellLast,
    /// Refusal 2 is given for too few samples only.
    MoreSamplesTaken,
    /// The place of refusal 8 is the last bad word.
    LastBadWord,
    /// Refusal 6 comes after the words that fit were written.
    RefusedWrites,
    /// A division by a negative number may return minus zero.
    MinusZero,
    /// A corner is answered without asking whether the centre is inside.
    CornerOutside,
    /// Coordinates of a crossing are rounded once, not twice.
    RoundedOnce,
    /// A crossing's floats are taken from parts that were halved and rounded.
    RoundedParts,
    /// Fractions are not reduced. Halves alone would come to the same: num is odd before.
    Unreduced,
    /// Fractions are not reduced but for their den.
    OnlyDenReduced,
    /// The larger of the middle two is the median.
    UpperMedian,
    /// The check leaves out the number of the block.
    CheckWithoutBlock,
    /// The check adds the bytes without turning the sum.
    CheckUnturned,
    /// The place of refusal 13 is the last bad block.
    LastBadBlock,
    /// Bytes after the last word need not be zero.
    LooseZeros,
    /// Blocks after the last due one are let through.
    SurplusBlocks,
    /// The limit on the number of words is not looked at.
    NoLimit,
    /// The rest of a file's room is cleared.
    RestCleared,
    /// Every root is upper.
    RootsUpper,
    /// A line is lower exactly if its level is below its parent's.
    KindByLevel,
    /// Upper and lower are exchanged.
    KindsExchanged,
    /// A line has the kind of its parent.
    KindCopied,
    /// The work bytes are not cleared.
    WorkLeft,
    /// All work bytes are cleared, not just the first w·h.
    WorkAllCleared,
    /// Work bytes are not cleared for an empty level list.
    WorkLeftWithoutLevels,
    /// Tree places up to the half are cleared.
    SurplusTreeCleared,
    /// Equal words do not cancel in painting.
    EqualWordsOnce,
    /// A word in the sample's own column counts as left of it.
    ColumnIncluded,
    /// Words before the first flag are line 0.
    LineWithoutFlag,
    /// A line that is not there is told to start at the end of the list.
    NoLineAtEnd,
    /// The form takes numbers with leading zeros.
    LeadingZeros,
    /// The form takes one newline after the samples.
    TrailingNewline,
    /// Two white bytes are skipped after the maximum of a PGM.
    PgmTwoWhite,
    /// A comment is taken after the maximum of a PGM.
    PgmCommentLast,
    /// All samples of a PGM are looked for before one is found too large: 24 before 23.
    PgmMissingFirst,
    /// A number of a PGM with a leading zero is refused.
    PgmZerosRefused,
    /// The place of 22, 23 and 24 is one byte late.
    PgmPlaceLate,
    /// A PGM is refused after the samples before were written.
    PgmRefusedWrites,
}

impl Fault {
    /// Every wrong variant.
    pub const ALL: [Fault; 52] = [
        Fault::SaddleSouthOnly,
        Fault::EqualityRightOnce,
        Fault::EqualityRight,
        Fault::LeadsSouthOnly,
        Fault::ColumnsOnly,
        Fault::OwnLevelOnly,
        Fault::RefusalsSwapped,
        Fault::UnlikeBefore,
        Fault::LastHot,
        Fault::HotWithoutPlace,
        Fault::CornerAsColumn,
        Fault::SidesExchanged,
        Fault::RoomBeforeWords,
        Fault::LineBeforeWords,
        Fault::CellLast,
        Fault::MoreSamplesTaken,
        Fault::LastBadWord,
        Fault::RefusedWrites,
        Fault::MinusZero,
        Fault::CornerOutside,
        Fault::RoundedOnce,
        Fault::RoundedParts,
        Fault::Unreduced,
        Fault::OnlyDenReduced,
        Fault::UpperMedian,
        Fault::CheckWithoutBlock,
        Fault::CheckUnturned,
        Fault::LastBadBlock,
        Fault::LooseZeros,
        Fault::SurplusBlocks,
        Fault::NoLimit,
        Fault::RestCleared,
        Fault::RootsUpper,
        Fault::KindByLevel,
        Fault::KindsExchanged,
        Fault::KindCopied,
        Fault::WorkLeft,
        Fault::WorkAllCleared,
        Fault::WorkLeftWithoutLevels,
        Fault::SurplusTreeCleared,
        Fault::EqualWordsOnce,
        Fault::ColumnIncluded,
        Fault::LineWithoutFlag,
        Fault::NoLineAtEnd,
        Fault::LeadingZeros,
        Fault::TrailingNewline,
        Fault::PgmTwoWhite,
        Fault::PgmCommentLast,
        Fault::PgmMissingFirst,
        Fault::PgmZerosRefused,
        Fault::PgmPlaceLate,
        Fault::PgmRefusedWrites,
    ];
}
