use core::fmt;

/// A refusal: the 44 of the table of refusals, under its names and in its order, each with its place where the table gives one; and the
/// one number of the archive's own that a call of this crate can give.
///
/// [`number`](Error::number) gives the number, [`place`](Error::place) the place, 0 where there is none. docs/REFUSALS.md
/// says of each when it is given and by which calls.
///
/// The table grows: a `match` needs a last arm for the rest.
#[derive(Clone, Copy, PartialEq, Eq, Hash, Debug)]
#[non_exhaustive]
pub enum Error {
    /// 1: a byte is wanted past the end of the part being read; where that end is.
    UnexpectedEndOfStream(usize),
    /// 2: a package length passes its part; the offset of its lead byte.
    InvalidPkgLength(usize),
    /// 3: a byte starts nothing that is allowed there; its offset.
    BadOpcode(usize),
    /// 4: a statement or a term at depth 17; the offset of its first byte.
    TooDeep(usize),
    /// 5: more than 65,536 bytes.
    BlockTooLong,
    /// 6: a byte is not a lead or a name character; its offset.
    BadNameByte(usize),
    /// 7: a name without components, or an empty text.
    EmptyNamesAreInvalid,
    /// 8: a segment of a text is wrong; where the segment starts, after its `^`s.
    InvalidNameSeg(usize),
    /// 9: a well-formed name or a result has more than 32 components.
    TooManyComponents,
    /// 10: a `^` has no segment to take away.
    InvalidNormalizedName,
    /// 11: an absolute path is needed.
    NotAbsolute,
    /// 12: the normal form is `\` or empty, and has no parent.
    RootHasNoParent,
    /// 13: `\` stands where a last segment is needed.
    RootNotAllowed,
    /// 14: `\` was to be removed.
    TriedToRemoveRootNamespace,
    /// 15: a level is missing; how many segments lead up to it, itself counted.
    LevelDoesNotExist(usize),
    /// 16: an exact name, or a whole search, finds no value.
    ValueDoesNotExist,
    /// 17: a value has that name at that level already.
    NameCollision,
    /// 18: 128 levels live, the root counted.
    LevelsFull,
    /// 19: 512 bindings live.
    BindingsFull,
    /// 20: 512 objects were made.
    ObjectsFull,
    /// 21: that handle was never handed out.
    NoSuchHandle,
    /// 22: the next unit would pass the budget.
    BudgetSpent,
    /// 23: an unset cell is read; its number.
    Unset(usize),
    /// 24: the table's memory is not well-formed.
    BadTable,
    /// 25: the text, the table or the list of levels does not fit; of levels, how many there are, else 0.
    OutTooSmall(usize),
    /// 26: memory holds no path.
    BadPath,
    /// 27: a whole table has fewer than 36 bytes.
    TableTooShort,
    /// 28: a whole table's signature is neither DSDT nor SSDT.
    BadSignature,
    /// 29: a whole table's stated length is under 36 or over the bytes given; or the body to write is too long for one.
    BadTableLength,
    /// 30: the bytes of a whole table do not sum to 0 modulo 256.
    BadChecksum,
    /// 31: a package ends before its contents; the offset of the first byte beyond its end that was needed, or of its lead byte where it is
    /// shorter than its own length bytes.
    PackageEndsEarly(usize),
    /// 32: an image ends before the end of a field; the place of the field in bits. No call of this crate gives it yet.
    ImageEndedEarly(usize),
    /// 33: an image's edition is none that is known; the place of the field in bits. No call of this crate gives it yet.
    ImageEdition(usize),
    /// 34: a count in an image's header is over its limit; the place of the field in bits. No call of this crate gives it yet.
    ImageCount(usize),
    /// 35: a depth in an image is 0, over 31 or more than one below the record before; the place of the field in bits. No call of this crate gives it yet.
    ImageDepth(usize),
    /// 36: a level's type in an image is over 5; the place of the field in bits. No call of this crate gives it yet.
    ImageType(usize),
    /// 37: a segment in an image is none; the place of the field in bits. No call of this crate gives it yet.
    ImageSegment(usize),
    /// 38: segments in an image do not rise; the place of the field in bits. No call of this crate gives it yet.
    ImageOrder(usize),
    /// 39: a level of an image at depth 31 has bindings; the place of the field in bits. No call of this crate gives it yet.
    ImageDeepBindings(usize),
    /// 40: a level's bindings in an image pass the header's count; the place of the field in bits. No call of this crate gives it yet.
    ImageBindingsOver(usize),
    /// 41: the last level's bindings in an image fall short of the header's count; the place of the field in bits. No call of this crate gives it yet.
    ImageBindingsShort(usize),
    /// 42: a handle in an image is not below the count of objects; the place of the field in bits. No call of this crate gives it yet.
    ImageHandle(usize),
    /// 43: spare bits of an image are set; the place of the field in bits. No call of this crate gives it yet.
    ImageSpareBits(usize),
    /// 44: bytes are left behind an image; the place of the field in bits. No call of this crate gives it yet.
    ImageBytesLeft(usize),
    /// 1003: a frame has no such cell to set; its number. It is the archive's own, and not in the table of refusals.
    BadCell(usize),
    /// Any other number. No call of this crate gives it while the archive is the one that the crate was written for: the archive's own
    /// 1001, 1002 and 1004 are for slices of a wrong length, for a wrong level type and for a frame of a wrong width, and the types here
    /// have none of them. It is here so that an archive that does not fit is seen, and nothing panics.
    NotInTable(u64),
}

impl Error {
    pub(crate) fn numbered(number: u64, place: usize) -> Error {
        match number {
            1 => Error::UnexpectedEndOfStream(place),
            2 => Error::InvalidPkgLength(place),
            3 => Error::BadOpcode(place),
            4 => Error::TooDeep(place),
            5 => Error::BlockTooLong,
            6 => Error::BadNameByte(place),
            7 => Error::EmptyNamesAreInvalid,
            8 => Error::InvalidNameSeg(place),
            9 => Error::TooManyComponents,
            10 => Error::InvalidNormalizedName,
            11 => Error::NotAbsolute,
            12 => Error::RootHasNoParent,
            13 => Error::RootNotAllowed,
            14 => Error::TriedToRemoveRootNamespace,
            15 => Error::LevelDoesNotExist(place),
            16 => Error::ValueDoesNotExist,
            17 => Error::NameCollision,
            18 => Error::LevelsFull,
            19 => Error::BindingsFull,
            20 => Error::ObjectsFull,
            21 => Error::NoSuchHandle,
            22 => Error::BudgetSpent,
            23 => Error::Unset(place),
            24 => Error::BadTable,
            25 => Error::OutTooSmall(place),
            26 => Error::BadPath,
            27 => Error::TableTooShort,
            28 => Error::BadSignature,
            29 => Error::BadTableLength,
            30 => Error::BadChecksum,
            31 => Error::PackageEndsEarly(place),
            32 => Error::ImageEndedEarly(place),
            33 => Error::ImageEdition(place),
            34 => Error::ImageCount(place),
            35 => Error::ImageDepth(place),
            36 => Error::ImageType(place),
            37 => Error::ImageSegment(place),
            38 => Error::ImageOrder(place),
            39 => Error::ImageDeepBindings(place),
            40 => Error::ImageBindingsOver(place),
            41 => Error::ImageBindingsShort(place),
            42 => Error::ImageHandle(place),
            43 => Error::ImageSpareBits(place),
            44 => Error::ImageBytesLeft(place),
            1003 => Error::BadCell(place),
            other => Error::NotInTable(other),
        }
    }

    /// The number in the table of refusals, or the archive's own.
    #[must_use]
    pub const fn number(self) -> u64 {
        match self {
            Error::UnexpectedEndOfStream(_) => 1,
            Error::InvalidPkgLength(_) => 2,
            Error::BadOpcode(_) => 3,
            Error::TooDeep(_) => 4,
            Error::BlockTooLong => 5,
            Error::BadNameByte(_) => 6,
            Error::EmptyNamesAreInvalid => 7,
            Error::InvalidNameSeg(_) => 8,
            Error::TooManyComponents => 9,
            Error::InvalidNormalizedName => 10,
            Error::NotAbsolute => 11,
            Error::RootHasNoParent => 12,
            Error::RootNotAllowed => 13,
            Error::TriedToRemoveRootNamespace => 14,
            Error::LevelDoesNotExist(_) => 15,
            Error::ValueDoesNotExist => 16,
            Error::NameCollision => 17,
            Error::LevelsFull => 18,
            Error::BindingsFull => 19,
            Error::ObjectsFull => 20,
            Error::NoSuchHandle => 21,
            Error::BudgetSpent => 22,
            Error::Unset(_) => 23,
            Error::BadTable => 24,
            Error::OutTooSmall(_) => 25,
            Error::BadPath => 26,
            Error::TableTooShort => 27,
            Error::BadSignature => 28,
            Error::BadTableLength => 29,
            Error::BadChecksum => 30,
            Error::PackageEndsEarly(_) => 31,
            Error::ImageEndedEarly(_) => 32,
            Error::ImageEdition(_) => 33,
            Error::ImageCount(_) => 34,
            Error::ImageDepth(_) => 35,
            Error::ImageType(_) => 36,
            Error::ImageSegment(_) => 37,
            Error::ImageOrder(_) => 38,
            Error::ImageDeepBindings(_) => 39,
            Error::ImageBindingsOver(_) => 40,
            Error::ImageBindingsShort(_) => 41,
            Error::ImageHandle(_) => 42,
            Error::ImageSpareBits(_) => 43,
            Error::ImageBytesLeft(_) => 44,
            Error::BadCell(_) => 1003,
            Error::NotInTable(other) => other,
        }
    }

    /// The place: an offset, a count of segments or a cell, as the case says; 0 where it has none.
    #[must_use]
    pub const fn place(self) -> usize {
        match self {
            Error::UnexpectedEndOfStream(place)
            | Error::InvalidPkgLength(place)
            | Error::BadOpcode(place)
            | Error::TooDeep(place)
            | Error::BadNameByte(place)
            | Error::InvalidNameSeg(place)
            | Error::LevelDoesNotExist(place)
            | Error::Unset(place)
            | Error::PackageEndsEarly(place)
            | Error::ImageEndedEarly(place)
            | Error::ImageEdition(place)
            | Error::ImageCount(place)
            | Error::ImageDepth(place)
            | Error::ImageType(place)
            | Error::ImageSegment(place)
            | Error::ImageOrder(place)
            | Error::ImageDeepBindings(place)
            | Error::ImageBindingsOver(place)
            | Error::ImageBindingsShort(place)
            | Error::ImageHandle(place)
            | Error::ImageSpareBits(place)
            | Error::ImageBytesLeft(place)
            | Error::OutTooSmall(place)
            | Error::BadCell(place) => place,
            _ => 0,
        }
    }

    /// The name in the table of refusals; `BadCell` and `NotInTable` for what is not there.
    #[must_use]
    pub const fn name(self) -> &'static str {
        match self {
            Error::UnexpectedEndOfStream(_) => "UnexpectedEndOfStream",
            Error::InvalidPkgLength(_) => "InvalidPkgLength",
            Error::BadOpcode(_) => "BadOpcode",
            Error::TooDeep(_) => "TooDeep",
            Error::BlockTooLong => "BlockTooLong",
            Error::BadNameByte(_) => "BadNameByte",
            Error::EmptyNamesAreInvalid => "EmptyNamesAreInvalid",
            Error::InvalidNameSeg(_) => "InvalidNameSeg",
            Error::TooManyComponents => "TooManyComponents",
            Error::InvalidNormalizedName => "InvalidNormalizedName",
            Error::NotAbsolute => "NotAbsolute",
            Error::RootHasNoParent => "RootHasNoParent",
            Error::RootNotAllowed => "RootNotAllowed",
            Error::TriedToRemoveRootNamespace => "TriedToRemoveRootNamespace",
            Error::LevelDoesNotExist(_) => "LevelDoesNotExist",
            Error::ValueDoesNotExist => "ValueDoesNotExist",
            Error::NameCollision => "NameCollision",
            Error::LevelsFull => "LevelsFull",
            Error::BindingsFull => "BindingsFull",
            Error::ObjectsFull => "ObjectsFull",
            Error::NoSuchHandle => "NoSuchHandle",
            Error::BudgetSpent => "BudgetSpent",
            Error::Unset(_) => "Unset",
            Error::BadTable => "BadTable",
            Error::OutTooSmall(_) => "OutTooSmall",
            Error::BadPath => "BadPath",
            Error::TableTooShort => "TableTooShort",
            Error::BadSignature => "BadSignature",
            Error::BadTableLength => "BadTableLength",
            Error::BadChecksum => "BadChecksum",
            Error::PackageEndsEarly(_) => "PackageEndsEarly",
            Error::ImageEndedEarly(_) => "ImageEndedEarly",
            Error::ImageEdition(_) => "ImageEdition",
            Error::ImageCount(_) => "ImageCount",
            Error::ImageDepth(_) => "ImageDepth",
            Error::ImageType(_) => "ImageType",
            Error::ImageSegment(_) => "ImageSegment",
            Error::ImageOrder(_) => "ImageOrder",
            Error::ImageDeepBindings(_) => "ImageDeepBindings",
            Error::ImageBindingsOver(_) => "ImageBindingsOver",
            Error::ImageBindingsShort(_) => "ImageBindingsShort",
            Error::ImageHandle(_) => "ImageHandle",
            Error::ImageSpareBits(_) => "ImageSpareBits",
            Error::ImageBytesLeft(_) => "ImageBytesLeft",
            Error::BadCell(_) => "BadCell",
            Error::NotInTable(_) => "NotInTable",
        }
    }
}

impl fmt::Display for Error {
    /// As `klem` prints it: `refused 6 at 3 BadNameByte`.
    fn fmt(&self, f: &mut fmt::Formatter<'_>) -> fmt::Result {
        write!(f, "refused {} at {} {}", self.number(), self.place(), self.name())
    }
}

// From 1.81 on both are one trait.
#[cfg(klem_core_error)]
impl core::error::Error for Error {}
#[cfg(all(feature = "std", not(klem_core_error)))]
impl std::error::Error for Error {}
