"""Records of galleys as bytes, and case A in several forms."""
from reference.galley import record

SPEC = record(b'GS', 30, 30, 0, 0, 1, 1, 1)
SECOND = record(b'G2', 30, 30, 0, 0, 1, 1, 1, 20)
FOLIO = record(b'FO', 38)
LINE = record(b'TL', 10, 0, 0, 1)
FIGURE = record(b'FG', 20, 0, 0, 1)
KEPT = record(b'FK', 20, 0, 0, 1)
TABLE = record(b'TB', 15, 0, 0, 1)
END = b'ED'
A = SPEC + 3 * LINE + FIGURE + END
A_FROM_38 = SPEC + FOLIO + 3 * LINE + FIGURE + END
A_SECOND = SECOND + 3 * LINE + FIGURE + END
A_TABLE = SPEC + 3 * LINE + FIGURE + TABLE + END
FIRST_VALUES = (30, 30, 0, 0, 1, 1, 1, 1, 0)
