"""The block code of a burst and the check of ten octets (TS 102 361-1, clauses 6.1, 7.2, B.1.1, B.3 and B.3.8).

A word is a whole number here: 196 bits, then four zero bits, place 0 the highest, so that `word.to_bytes(25, "big")` is what a link frame carries.
This module encodes, and reads words without a flipped bit. It corrects nothing.
"""
from collections.abc import Iterable, Sequence

PLACES, ROWS, COLUMNS, INFORMATION_BITS = 196, 13, 15, 96
# The octets of a burst on the link, of a PDU, and of a PDU with its check.
BURST_OCTETS, PDU_OCTETS = 25, 10

# Each parity cell of a row is the sum, modulo 2, of these cells of the row; likewise in a column.
ROW_PARITIES = {11: (0, 1, 2, 3, 5, 7, 8), 12: (1, 2, 3, 4, 6, 8, 9), 13: (2, 3, 4, 5, 7, 9, 10), 14: (0, 1, 2, 4, 6, 7, 10)}
COLUMN_PARITIES = {9: (0, 1, 3, 5, 6), 10: (0, 1, 2, 4, 6, 7), 11: (0, 1, 2, 3, 5, 7, 8), 12: (0, 2, 4, 5, 8)}
# The rows and columns that carry information; the rows and columns after them are parities.
INFORMATION_ROWS, INFORMATION_COLUMNS = 9, 11
# The cells of the information bits, most significant first. The three cells before them are reserved.
INFORMATION_CELLS = [(row, column) for row in range(INFORMATION_ROWS)
                     for column in range(INFORMATION_COLUMNS)][3:]

# x^16 + x^12 + x^5 + 1, what the remainder is complemented with, and the mask of a CSBK.
POLYNOMIAL, COMPLEMENT, CSBK_MASK = 0x11021, 0xFFFF, 0xA5A5

Grid = list[list[int]]


def index_of(row: int, column: int) -> int:
    """The index of a cell before interleaving; index 0 is the reserved bit R(3)."""
    return 1 + COLUMNS * row + column


def place_of(row: int, column: int) -> int:
    """The place of a cell in a word, 1 to 195."""
    return 181 * index_of(row, column) % PLACES


def cell_at(place: int) -> tuple[int, int]:
    """The row and column of the cell at a place, 1 to 195."""
    return divmod(13 * place % PLACES - 1, COLUMNS)


def bit_at(place: int) -> int:
    """A word with nothing but the bit at a place."""
    return 1 << (8 * BURST_OCTETS - 1 - place)


def fill_parities(grid: Grid) -> None:
    """Sets the parity cells of a grid: those of the nine information rows, then those of all fifteen columns."""
    for row in range(INFORMATION_ROWS):
        for parity, cells in ROW_PARITIES.items():
            grid[row][parity] = sum(grid[row][column] for column in cells) % 2
    for column in range(COLUMNS):
        for parity, cells in COLUMN_PARITIES.items():
            grid[parity][column] = sum(grid[row][column] for row in cells) % 2


def codeword_of_bits(bits: Sequence[int]) -> int:
    """The codeword of 96 information bits, computed from the equations; its reserved cells are 0."""
    grid: Grid = [[0] * COLUMNS for _ in range(ROWS)]
    for (row, column), bit in zip(INFORMATION_CELLS, bits, strict=True):
        grid[row][column] = bit
    fill_parities(grid)
    return sum(bit_at(place_of(row, column)) for row in range(ROWS) for column in range(COLUMNS) if grid[row][column])


# The code is linear: a codeword is the sum of the codewords of its information bits.
_BASIS = [codeword_of_bits([int(k == n) for k in range(INFORMATION_BITS)]) for n in range(INFORMATION_BITS)]
_INFORMATION = [bit_at(place_of(row, column)) for row, column in INFORMATION_CELLS]


def word_of(octets: bytes) -> int:
    """The codeword of twelve octets."""
    information, word = int.from_bytes(octets, "big"), 0
    for n, codeword in enumerate(_BASIS):
        if information >> (INFORMATION_BITS - 1 - n) & 1:
            word ^= codeword
    return word


def remainder_of(octets: bytes) -> int:
    """The remainder of `x^16 M` by the polynomial of the check, `M` being the polynomial of the octets, most significant bit first."""
    value = int.from_bytes(octets, "big") << 16
    for degree in range(len(octets) * 8 + 15, 15, -1):
        if value >> degree & 1:
            value ^= POLYNOMIAL << (degree - 16)
    return value


def check_of(octets: bytes) -> bytes:
    """The two octets of check that follow the ten octets of a PDU."""
    return (remainder_of(octets) ^ COMPLEMENT ^ CSBK_MASK).to_bytes(2, "big")


def burst_of(octets: bytes, flips: Iterable[int] = ()) -> bytes:
    """The 25 octets that carry ten octets and their check, with the bits at the places `flips` flipped."""
    word = word_of(octets + check_of(octets))
    for place in flips:
        word ^= bit_at(place)
    return word.to_bytes(BURST_OCTETS, "big")


def octets_of(burst: bytes) -> bytes | None:
    """The ten octets of a burst that is a codeword with the right check; None for any other burst, also one that could be corrected."""
    word = int.from_bytes(burst, "big")
    information = 0
    for bit in _INFORMATION:
        information = information << 1 | int(bool(word & bit))
    octets = information.to_bytes(12, "big")
    pdu = octets[:PDU_OCTETS]
    return pdu if word_of(octets) == word and check_of(pdu) == octets[PDU_OCTETS:] else None


# Between the halves of a word on the air: the slot type of a CSBK with colour code 1, and the sync of a radio.
SLOT_TYPE, SYNC = 0b0001001100_1010110010, 0xD5D7F77FD757


def on_air(word: bytes) -> bytes:
    """The 33 octets of a radio's burst with colour code 1 around the 25 octets of a word."""
    first, last = divmod(int.from_bytes(word, "big") >> 4, 1 << 98)
    before, after = divmod(SLOT_TYPE, 1 << 10)
    return ((((first << 10 | before) << 48 | SYNC) << 10 | after) << 98 | last).to_bytes(33, "big")
