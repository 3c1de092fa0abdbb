//! The limits of a type and of a sheet (documents 01 and 02), and of the program `calls`, each once.

pub const SIZES: usize = 8;
pub const TYPES: usize = 32;
pub const DEPTH: usize = 8;
pub const COPIES: usize = 31;
/// Bytes of a Def's name.
pub const NAME: usize = 16;
pub const LARGEST: usize = 1 << 53;
pub const UNKNOWN: u64 = u64::MAX;

/// Bytes of a type's records at most.
pub const TYPE: usize = 4_992;
/// Bytes that one of a type's types, those inside it left out, takes at most without marks and with
/// seven bytes to a size: two counts, the sizes, the kind, the form of a box, the name's length, the
/// name, the count of fields.
pub const PACKED_PART: usize = 2 + 2 * SIZES * 7 + 1 + 1 + 1 + NAME + 1;

pub const STEPS: usize = 64;
/// Types on the stack at once.
pub const PLACES: usize = 6;
/// Names that a sheet declares, and bytes of one, of which it has at least one (document 02, 2026-06).
pub const NAMES: usize = 16;
pub const LETTERS: usize = 16;
/// Bytes of a sheet that the program reads.
pub const INPUT: usize = 49_152;
/// Bytes of scratch: for each place a type without marks (document 02, 2026-05).
pub const SCRATCH: usize = PLACES * TYPES * PACKED_PART;
/// Bytes of a result that suffice, whatever is left: a type's records for each place.
pub const RESULT: usize = PLACES * TYPE;

/// Bytes of a line, and of a buffer that a request asks for.
pub const LINE: usize = 131_072;
pub const LENT: u64 = 65_536;
