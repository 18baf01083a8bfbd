"""Lists that cannot be read, and what is said of each."""

# Name, bytes of a list for case A, and a part of the remark that must name line and field.
JUNK = [
    ('a word', b'1 1\nthree 1\n', 'line 2: field 1'),
    ('a sign', b'1 -1\n', 'line 1: field 2'),
    ('a plus', b'+1 1\n', 'line 1: field 1'),
    ('a fraction', b'1 1\n\n3.0 1\n', 'line 3: field 1'),
    ('a number of 33 bits', b'4294967296 1\n', 'line 1: field 1'),
    ('a very long number', b'9' * 5_000 + b' 1\n', 'line 1: field 1'),
    ('one number', b'1 1\n3\n', 'line 2'),
    ('three numbers', b'1 1\n2 3 1\n', 'line 2'),
    ('page numbers that stop', b'1 1 1\n3 1\n', 'line 2: 2 numbers, but a page has three here: q i j'),
    ('page numbers from 2', b'2 1 1\n3 3 1\n', 'line 1: field 1: page 1 is due, not 2'),
    ('an empty field', b'1,\n', 'line 1: field 2'),
    ('columns of something else', b'page,height\n1,1\n', 'line 1: columns can be named page, lines, figures and tables'),
    ('a galley as text', b'GS 30 30 0 0 1 1 1\n', 'line 1: a record of a galley'),
    ('a galley', b'GS' + bytes(28), 'a galley file stands where a text is wanted'),
    ('six numbers', b'1 1 1 1 1 1\n', 'line 1'),
    ('a measure alone', b'1 1 1 1 1\n', '1 pages, but 0 follow'),
    ('two measures', b'2 0 1 1 0\n2 0 1 1 0\n', 'line 2'),
    ('four numbers later on', b'1 1\n2 0 1 1\n', 'line 2'),
    ('five numbers later on', b'1 1\n2 0 1 1 0\n', 'line 2'),
    ('a page number out of turn', b'2 0 1 1 0\n1 1 1\n3 3 1\n', 'line 3: field 1'),
    ('a page too few', b'2 0 1 1 0\n1 1 1\n', '2 pages'),
    ('a page too many', b'1 0 1 1 0\n1 1 1\n2 3 1\n', '1 pages'),
    ('two numbers after a measure', b'2 0 1 1 0\n1 1\n', 'line 2'),
    ('a refusal', b'R 11 0\n', 'line 1'),
    ('no text', b'1 1\n\xff\xfe 1\n', 'line 2'),
    ('a zero byte', b'1 \x001\n', 'line 1: field 2'),
    ('an escape', b'1 \x1b[2J\n', 'line 1: field 2'),
]

# The same for galley K, which has a table.
JUNK_TABLED = [
    ('two numbers', b'2 1\n', 'line 1: 2 numbers, but a page of this galley has three: i j d'),
    ('one page of two numbers', b'2 1 0\n3 1\n', 'line 2: 2 numbers, but a page of this galley has three: i j d'),
    ('four numbers later on', b'2 1 0\n2 3 1 1\n', 'line 2: 4 numbers, but a page of this galley has three: i j d'),
    ('a table that is none', b'2 1 x\n', 'line 1: field 3'),
    ('a page without its table', b'2 1 1 2 0\n1 2 1\n', 'line 2: 3 numbers, but a page has four here: q i j d'),
    ('five numbers after a measure', b'2 1 1 2 0\n1 2 1 0 0\n', 'line 2: 5 numbers, but a page has four here: q i j d'),
    ('a page number out of turn', b'2 1 1 2 0\n2 2 1 0\n', 'line 2: field 1: page 1 is due, not 2'),
    ('a page too few', b'2 1 1 2 0\n1 2 1 0\n', '2 pages, but 1 follow'),
]
