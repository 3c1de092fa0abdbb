"""The limits that the lists of requests are made by, each once: of a type and of a sheet (documents 01 and 02), and of the program `calls`."""

UNKNOWN = 2**64 - 1
LARGEST = 2**53
SIZES = 8
NAME = 16
TYPES = 32

# bytes of a type's records at most; of one of its types, those inside it left out, without marks and with seven bytes to a size: two counts, the
# sizes, the kind, the form of a box, the name's length, the name, the count of fields
TYPE = 4992
PACKED_PART = 2 + 2 * SIZES * 7 + 1 + 1 + 1 + NAME + 1

# steps; types on the stack at once; names that a sheet declares, and bytes of one, of which it has at least one; bytes of scratch, for each place a
# type without marks; bytes of a result that suffice, for each place a type's records; bytes of a sheet that the program reads
STEPS = 64
STACK = 6
NAMES = 16
LETTERS = 16
SCRATCH = STACK * TYPES * PACKED_PART
RESULT = STACK * TYPE
SHEET = 49152

# bytes of a line, and of a buffer that a request asks for
LINE = 131072
LENT = 65536
