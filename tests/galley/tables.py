"""Tables in the bytes of a galley: where they may stand, how many, and in which order."""
from records import SPEC, FOLIO, LINE, FIGURE, KEPT, TABLE, END, FIRST_VALUES
from reference.galley import record


def of_tables(tally):
    held = [(15, 0, 0, 1, 1)]
    tally.same('a table alone', SPEC + LINE + TABLE + END, ('galley', FIRST_VALUES, 1, [(10, 0, 0, 1, 1)], [], held))
    tally.same('50 tables', SPEC + LINE + 50 * TABLE + END, ('galley', FIRST_VALUES, 1, [(10, 0, 0, 1, 1)], [], 50 * held))
    tally.same('51 tables', SPEC + LINE + 51 * TABLE + END, ('refused', 4, 948))
    tally.same('a mark for table 51', SPEC + LINE + 50 * TABLE + b'TB', ('refused', 4, 948))
    tally.same('200 figures and 50 tables', SPEC + 4_000 * LINE + 200 * KEPT + 50 * TABLE + END, ('galley',))
    tally.same('table 51 after 200 figures', SPEC + 4_000 * LINE + 200 * FIGURE + 51 * TABLE + END, ('refused', 4, 76_530))
    tally.same('a table before any line', SPEC + TABLE + END, ('refused', 5, 30))
    tally.same('a table before any line, after a folio', SPEC + FOLIO + TABLE + END, ('refused', 5, 36))
    tally.same('a table first', TABLE + SPEC + LINE + END, ('refused', 2, 0))
    tally.same('a line after a table', SPEC + LINE + TABLE + LINE + END, ('refused', 2, 66))
    tally.same('a figure after a table', SPEC + LINE + TABLE + FIGURE + END, ('refused', 2, 66))
    tally.same('a kept figure after a table', SPEC + LINE + FIGURE + TABLE + KEPT + END, ('refused', 2, 84))
    tally.same('figure 201 after a table', SPEC + LINE + 200 * FIGURE + TABLE + FIGURE + END, ('refused', 2, 3_666))
    tally.same('a folio after a table', SPEC + LINE + TABLE + FOLIO + END, ('refused', 2, 66))
    tally.same('a table cut short', SPEC + LINE + TABLE[:17], ('refused', 1, 48))
    tally.same('a table out of range', SPEC + LINE + record(b'TB', 0, 2, 1, 1) + END, ('refused', 3, 48))
    tally.same('a table cited by no line', SPEC + LINE + FIGURE + record(b'TB', 1, 0, 0, 2) + END, ('refused', 6, 66))
    two = [record(b'TB', 1, 0, 0, cite) for cite in (1, 2)]
    tally.same('tables cited in order', SPEC + 2 * LINE + two[0] + two[1] + END, ('galley',))
    tally.same('tables cited out of order', SPEC + 2 * LINE + two[1] + two[0] + END, ('refused', 7, 84))
    tally.same('6 before 7', SPEC + 2 * LINE + two[1] + record(b'TB', 1, 0, 0, 0) + END, ('refused', 6, 84))
    late = record(b'FG', 1, 0, 0, 2)
    tally.same('a table cited before the last figure', SPEC + 2 * LINE + late + two[0] + two[1] + END, ('galley',))
    tally.same('a table cited before the last table, not before the last figure', SPEC + 2 * LINE + FIGURE + two[1] + two[0] + END,
               ('refused', 7, 102))
