"""Small documents for the package's tests: a class, packages, and text with figures and tables that is the same in every run."""
import random

ADJECTIVES = 'ripe early quiet careful golden steady narrow patient heavy bright level even old warm slow tall short long'.split()
NOUNS = 'valley street stone chime lantern river bell barley harvest ladder tower field mill printer granary sheaf page spread'.split()
VERBS = 'follows keeps rests turns meets waits marks carries opens shows leaves reaches moves returns stands'.split()


class Prose:
    """Sentences without an end; every one differs from the others by its number."""

    def __init__(self, seed):
        self.random = random.Random(seed)
        self.count = 0

    def sentence(self):
        self.count += 1
        one, two = (f'the {self.random.choice(ADJECTIVES)} {self.random.choice(NOUNS)}' for _ in range(2))
        return f'{one.capitalize()} {self.random.choice(VERBS)} {two} ({self.count}).'

    def paragraph(self, opening=''):
        return opening + ' '.join(self.sentence() for _ in range(self.random.randint(6, 11)))


def name(number):
    """Words for a number, which no other has: digits are not compared."""
    return f'{ADJECTIVES[number % 18]} {NOUNS[number * 5 % 18]} {NOUNS[number // 18]}'


def figure(number, high, extra='', kind='figure'):
    inner = rf'\fbox{{\parbox[c][{high}mm][c]{{60mm}}{{\centering drawing of the {name(number)}}}}}'
    if kind == 'table':
        rows = ''.join(rf'row {row} of the {name(number)} & {row * 7} \\' for row in range(high // 5))
        inner = rf'\begin{{tabular}}{{lr}}{rows}\end{{tabular}}'
    return (rf'\begin{{{kind}}}[tbp]\centering {extra}{inner}\caption{{The {kind} of number {number} as it is set.}}'
            rf'\label{{{kind}:{number}}}\end{{{kind}}}')


def body(prose, floats=6, tables=2, command=r'\ref', headings=r'\section', every=4):
    """Paragraphs with floats among them, each cited before it stands."""
    rows = []
    for number in range(1, floats + tables + 1):
        kind = 'table' if number % 4 == 0 and tables else 'figure'
        if number % every == 1:
            rows.append(rf'{headings}{{Part {number} of the work}}')
        rows += [prose.paragraph(), prose.paragraph(rf'See {command}{{{kind}:{number}}} here. '), figure(number, 30 + 7 * (number % 5), kind=kind),
                 prose.paragraph(), prose.paragraph()]
    return rows


def document(name, preamble='', rows=None, options='11pt,twoside,a5paper', package='fill=80,trace=true', opening=''):
    rows = rows or body(Prose(name))
    return '\n'.join([rf'\documentclass[{options}]{{{name.split("-")[0]}}}', preamble, rf'\usepackage[{package}]{{barleychime}}',
                      r'\begin{document}', opening, '\n\n'.join(rows), r'\end{document}', ''])


def chapters(name, **more):
    rows = []
    for chapter in range(3):
        prose = Prose(f'{name}{chapter}')
        rows.append(rf'\chapter{{Chapter {chapter}}}')
        rows += [row.replace(':', f':{chapter}-') for row in body(prose, floats=4, tables=1, every=9)]
    return document(name, rows=rows, opening=r'\tableofcontents', **more)


def with_package(name, preamble, rows=(), at=9, **more):
    """An article that uses a package: rows of its own stand among the text."""
    text = body(Prose(name), command=more.pop('command', r'\ref'), floats=more.pop('floats', 6))
    return document(f'article-{name}', preamble, text[:at] + list(rows) + text[at:], **more)


def appendix_on_one_side():
    """A chapter, and an appendix that is a figure as high as a page and the few lines that cite it: it has a pagination on a left-hand page
    alone, where both are on one spread."""
    prose = Prose('sides4')
    whole = figure(40, 99).replace('99mm', r'0.88\textheight')
    few = ' '.join([r'See \ref{figure:40} here.', *(prose.sentence() for _ in range(3))])
    rows = [r'\chapter{The work}', *body(prose, floats=4, tables=0, every=99)[1:], r'\appendix', r'\chapter{A page of its own}', few, whole]
    return document('report', rows=rows, options='11pt,twoside,a5paper,openany')


def passed_barrier():
    """Three figures before a barrier that do not fit on the page that cites them: the best list without the barrier lets two of them pass it."""
    prose = Prose('barrier')
    numbers = range(40, 43)
    cited = prose.paragraph('See ' + ', '.join(rf'\ref{{figure:{number}}}' for number in numbers) + ' here. ')
    rows = [*body(prose, floats=2, tables=0, every=99), cited, *(figure(number, 65) for number in numbers), r'\FloatBarrier']
    rows += [row.replace('figure:', 'figure:9') for row in body(prose, floats=3, tables=0, every=99)[1:]]
    return document('article', r'\usepackage{placeins}', rows, options='11pt,a5paper', package='fill=70,trace=true')


def stuck_at_barrier():
    """Floats for the foot of a page that are too high for it: LaTeX has them wait until \\clearpage, so that the barrier must let them out."""
    high = [figure(number, 60).replace('[tbp]', '[b]') for number in (80, 81)]
    return with_package('stuck', r'\usepackage{placeins}', [r'\FloatBarrier', *high, r'\FloatBarrier'], at=8)


def long_table(name, columns='{lr}'):
    return rf'\begin{{{name}}}{columns}' + ''.join(rf'long row {row} & {row} \\' for row in range(60)) + rf'\end{{{name}}}'


def on_sides():
    """KOMA's commands for a side: the second galley opens on the right, the third on the left."""
    parts = [[row.replace('figure:', f'figure:{part}') for row in body(Prose(f'koma{part}'), floats=3, tables=0)] for part in range(1, 4)]
    return document('scrartcl', rows=[*parts[0], r'\cleardoubleoddpage', *parts[1], r'\cleardoubleevenpage', *parts[2]], options='11pt,twoside,paper=a5')


def blocked():
    """memoir's barrier."""
    rows = [*body(Prose('block'))[:9], figure(80, 60), figure(81, 60), r'\FloatBlock', *body(Prose('block2'), floats=3, tables=0)[1:]]
    return document('memoir', rows=[row.replace('figure:', 'figure:9') if k > 12 else row for k, row in enumerate(rows)],
                    options='11pt,twoside,a5paper,article', package='fill=70,trace=true')


COLUMNS = r'\begin{multicols}{2}' + Prose('columns').paragraph() + r'\end{multicols}'
WRAPPED = r'\begin{wrapfigure}{r}{40mm}\fbox{\parbox[c][30mm][c]{30mm}{wrapped}}\end{wrapfigure}'
CONTINUED = '\n\n'.join([figure(90, 25), figure(91, 25, extra=r'\ContinuedFloat ').replace('caption{', r'caption[]{')])
KEPT = '\n\n'.join([figure(92, 20, extra=r'\KeepWithNextFloat '), figure(93, 20)])
PANELS = (r'\begin{figure}[tbp]\centering\begin{subfigure}{40mm}\fbox{one}\caption{First panel}\label{panel:1}\end{subfigure}'
          r'\begin{subfigure}{40mm}\fbox{two}\caption{Second panel}\label{panel:2}\end{subfigure}\caption{Panels}\end{figure}')
NUMBERED = [r'\footnote{A note at the foot of the page, which is long enough to be read twice by anyone who reads notes.}',
            r'\pagenumbering{Roman}', r'\thispagestyle{empty}', r'\suppressfloats[t]']

# The documents by name; the text that a run must warn of, for those that LaTeX makes pages of.
ALL = {
    'article': document('article', rows=body(Prose('article')) + [r'Text with a note.' + NUMBERED[0]]),
    'article-late': document('article-late', rows=body(Prose('late'))[:12] + NUMBERED[2:] + body(Prose('later'), floats=3, tables=0)[1:]
                             ).replace('article-late', 'article'),
    'report': chapters('report', options='11pt,twoside,a5paper,openany'),
    'book': chapters('book'),
    'scrartcl': document('scrartcl', options='11pt,twoside,paper=a5'),
    'scrbook': chapters('scrbook', options='11pt,twoside,paper=a5'),
    'memoir': chapters('memoir', options='11pt,twoside,a5paper,openright'),
    'hyperref': with_package('hyperref', r'\usepackage{hyperref}', [r'\hyperref[figure:6]{a link to the sixth}'], command=r'\autoref'),
    'cleveref': with_package('cleveref', r'\usepackage{cleveref}', [r'Both \cref{figure:5,figure:6} follow.'], command=r'\cref'),
    'varioref': with_package('varioref', r'\usepackage{varioref}', command=r'\vref'),
    'fancyhdr': with_package('fancyhdr', r'\usepackage{fancyhdr}\pagestyle{fancy}\fancyhf{}\fancyhead[LE,RO]{\thepage}\fancyhead[RE]{\leftmark}'),
    'caption': with_package('caption', r'\usepackage{caption}', [CONTINUED, KEPT]),
    'subcaption': with_package('subcaption', r'\usepackage{subcaption}', [r'See \subref{panel:1} of \ref{panel:2}.', PANELS]),
    'wrapfig': with_package('wrapfig', r'\usepackage{wrapfig}', [WRAPPED]),
    'placeins': with_package('placeins', r'\usepackage{placeins}', [r'\FloatBarrier', figure(80, 60), figure(81, 60), r'\FloatBarrier'], at=8),
    'stuck': stuck_at_barrier(),
    'framed': with_package('framed', r'\usepackage{framed}', [r'\begin{framed}' + Prose('frame').sentence() + r'\end{framed}'], at=1),
    'longtable': with_package('longtable', r'\usepackage{longtable}', [long_table('longtable')]),
    'xltabular': with_package('xltabular', r'\usepackage{xltabular}', [long_table('xltabular', r'{\textwidth}{Xr}')]),
    'supertabular': with_package('supertabular', r'\usepackage{supertabular}', [long_table('supertabular')]),
    'longtabu': with_package('longtabu', r'\usepackage{longtable,tabu}', [long_table('longtabu')]),
    'afterpage': with_package('afterpage', r'\usepackage{afterpage}', [r'\afterpage{\noindent\fbox{after this page}\par}']),
    'twocolumn': with_package('twocolumn', '', [r'\twocolumn', Prose('two').paragraph(), r'\onecolumn']),
    'sides': on_sides(),
    'uncited': with_package('uncited', '', opening=r'\setcounter{page}{0}', rows=['Words before the uncited drawing.', figure(70, 30)]),
    'block': blocked(),
    'multicol': with_package('multicol', r'\usepackage{multicol}', [COLUMNS]),
    'graphicx': with_package('graphicx', r'\usepackage{graphicx}', [r'\begin{figure}\rotatebox{5}{\scalebox{2}{turned}}\caption{Turned}\end{figure}']),
    'microtype': with_package('microtype', r'\usepackage{microtype}'),
    'babel': with_package('babel', r'\usepackage[english]{babel}'),
}
WARNED = {'framed': 'framed: a frame that fits a page is not broken', 'wrapfig': 'wrapfigure: LaTeX makes',
          'longtable': 'longtable: LaTeX makes', 'multicol': 'multicols: LaTeX makes',
          'xltabular': 'xltabular: LaTeX makes', 'supertabular': 'supertabular: LaTeX makes', 'longtabu': 'longtabu: LaTeX makes',
          'block': r'\FloatBlock: LaTeX makes', 'afterpage': r'\afterpage: LaTeX makes', 'twocolumn': r'\twocolumn: LaTeX makes'}
