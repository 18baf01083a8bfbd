//! Galleys to measure with: always the same ones, from a small generator of numbers.

/// What a galley is like. Lengths are in hundredths of a point, and a page has 550 points.
#[derive(Clone, Copy)]
pub struct Shape {
    pub name: &'static str,
    pub lines: u32,
    pub figures: u32,
    pub tables: u32,
    pub sides: u32,
    /// α and β.
    pub weights: (u32, u32),
    /// Least and greatest height of a line, and of a figure or table.
    pub line_height: (u32, u32),
    pub figure_height: (u32, u32),
    pub setting: Setting,
    pub cited: Cited,
    pub end: End,
    pub tried: Tried,
}

/// How pages are set.
#[derive(Clone, Copy, PartialEq)]
pub enum Setting {
    /// Pages 90 % full, paragraphs that hold together, spaces that stretch.
    Typeset,
    /// Pages 90 % full, and spaces that stretch by a little; a page may end after every line.
    Loose,
    /// None of these: a page may be as low as one likes.
    Bare,
}

/// The line that cites a figure or table.
#[derive(Clone, Copy, PartialEq)]
pub enum Cited {
    AtRandom,
    ByTheFirstLine,
    ByTheLastLine,
}

/// What is out of the ordinary at the end of the lines.
#[derive(Clone, Copy, PartialEq)]
pub enum End {
    Plain,
    /// So many lines after which no page may end.
    Unbroken(u32),
    /// A last line of this height.
    Line(u32),
    /// A last page that is full, and a last line of height 1.
    Full,
}

/// What makes the galley while one waits: each also what comes after it.
#[derive(Clone, Copy, PartialEq, PartialOrd)]
pub enum Tried {
    /// The search of every start of every place in plain Rust.
    Plain,
    /// That by queues.
    Queues,
    /// An earlier engine, and the search of plain Rust that was its own.
    Before,
    /// Nothing but the engine and the same search in plain Rust.
    Engine,
}

impl Shape {
    /// Words of work area and of page list.
    pub fn words(&self) -> (usize, usize) {
        let [lines, figures, tables] = [self.lines as usize, self.figures as usize, self.tables as usize];
        (10 * (lines + 1) * (figures + 1) * (tables + 1), self.page_words() * (lines + figures + tables))
    }

    /// Words a page takes in a list.
    pub fn page_words(&self) -> usize {
        if self.tables == 0 {
            2
        } else {
            3
        }
    }
}

const PAGE: u32 = 55_000;

const HANDBOOK: Shape = Shape {
    name: "handbook",
    lines: 4_000,
    figures: 200,
    tables: 0,
    sides: 2,
    weights: (1, 1),
    line_height: (1_200, 1_200),
    figure_height: (8_000, 24_000),
    setting: Setting::Typeset,
    cited: Cited::AtRandom,
    end: End::Plain,
    tried: Tried::Plain,
};

/// Everything fits one page, and a page may end after every line.
const FLAT: Shape = Shape {
    name: "height 0",
    line_height: (0, 0),
    figure_height: (0, 0),
    setting: Setting::Bare,
    tried: Tried::Queues,
    ..HANDBOOK
};

/// Handbooks of both sidednesses, pages of many short lines, pages of many small figures.
pub const HANDBOOKS: [Shape; 4] = [
    Shape { name: "handbook, single-sided", sides: 1, ..HANDBOOK },
    Shape { name: "handbook, double-sided", ..HANDBOOK },
    Shape { name: "short lines", line_height: (400, 400), ..HANDBOOK },
    Shape { name: "many figures on a page", figure_height: (2_000, 5_000), ..HANDBOOK },
];

/// Tables beside the figures, in a stream of their own. With 50 of them the work area has 1.6 GB.
pub const TABLED: [Shape; 2] = [
    Shape { name: "handbook with tables", tables: 10, ..HANDBOOK },
    Shape { name: "handbook with tables", tables: 50, tried: Tried::Queues, ..HANDBOOK },
];

/// The chapters of a book, and how many there are.
pub const CHAPTERS: u64 = 200;
pub const BOOKS: [Shape; 2] = [
    Shape { name: "200 chapters, single-sided", lines: 200, figures: 10, sides: 1, ..HANDBOOK },
    Shape { name: "200 chapters, double-sided", lines: 200, figures: 10, ..HANDBOOK },
];

/// The handbook with weights of which one or both are 0, so that costs tell places apart by less.
const WEIGHTED: [Shape; 2] = [
    Shape { name: "handbook, α = 0", weights: (0, 1), tried: Tried::Queues, ..HANDBOOK },
    Shape { name: "handbook, α = β = 0", weights: (0, 0), tried: Tried::Queues, ..HANDBOOK },
];

/// Windows of starting lines as wide as they get with heights that are not 0, and no figure that has to wait to be cited.
const WIDE: [Shape; 3] = [
    Shape { name: "lines of a hundredth of a page", line_height: (SMALL, SMALL), ..HANDBOOK },
    Shape { name: "figures cited by line 1", cited: Cited::ByTheFirstLine, ..HANDBOOK },
    Shape { name: "lines and figures of a hundredth", tried: Tried::Plain, ..HUNDREDTHS },
];

const SMALL: u32 = PAGE / 100;
const HUNDREDTHS: Shape = Shape { line_height: (SMALL, SMALL), figure_height: (SMALL, SMALL), ..FLAT };

/// The galleys that are hardest for a search that knows what is still to come: blocks of a hundredth of a page, of which some hundred fit
/// one, in two streams and in three. They are measured only where "worst" is asked for.
const WORST: [Shape; 17] = {
    const TWO: Shape = Shape { name: "worst: hundredths", tried: Tried::Before, ..HUNDREDTHS };
    const THREE: Shape = Shape { lines: 1_000, figures: 100, tables: 20, tried: Tried::Engine, ..TWO };
    const MOST: Shape = Shape { lines: 4_000, figures: 200, tables: 50, ..THREE };
    const VARIED: Shape =
        Shape { name: "worst: varied hundredths", line_height: (300, 800), figure_height: (100, 1_000), ..MOST };
    [
        Shape { name: "worst: hundredths, α = 0", weights: (0, 1), ..TWO },
        Shape { name: "worst: hundredths, α = β = 0", weights: (0, 0), ..TWO },
        Shape { name: "worst: 120 lines without an end", end: End::Unbroken(120), ..TWO },
        Shape { name: "worst: last line too high", end: End::Line(60_000), ..TWO },
        Shape { name: "worst: last page full", end: End::Full, ..TWO },
        Shape { name: "worst: cited by the last line", cited: Cited::ByTheLastLine, ..TWO },
        Shape { name: "worst: lines of a thousandth", line_height: (50, 50), ..TWO },
        THREE,
        Shape { name: "worst: hundredths, α = 0", weights: (0, 1), ..THREE },
        Shape { name: "worst: 120 lines without an end", end: End::Unbroken(120), ..THREE },
        Shape { name: "worst: cited by the last line", cited: Cited::ByTheLastLine, ..THREE },
        Shape { name: "worst: cited by line 1, α = 0", cited: Cited::ByTheFirstLine, weights: (0, 1), ..THREE },
        Shape { name: "worst: cited by line 1, β = 1000", cited: Cited::ByTheFirstLine, weights: (1, 1_000), ..THREE },
        MOST,
        VARIED,
        Shape { name: "worst: varied, cited by line 1", cited: Cited::ByTheFirstLine, ..VARIED },
        Shape { name: "worst: varied and loose", setting: Setting::Loose, ..VARIED },
    ]
};

/// Those that took minutes in every trial so far. They are measured only where "longest" is asked for.
const LONGEST: [Shape; 2] = {
    const MOST: Shape = Shape { tables: 50, tried: Tried::Engine, ..HUNDREDTHS };
    [
        Shape { name: "longest: hundredths, α = 0", weights: (0, 1), ..MOST },
        Shape {
            name: "longest: cited by line 1, β = 1000", cited: Cited::ByTheFirstLine, weights: (1, 1_000), ..MOST
        },
    ]
};

/// Whether a galley is measured where galleys with this in their name are asked for: all but the hardest where nothing is.
pub fn is_asked(shape: &Shape, wanted: &str) -> bool {
    let hard = ["worst", "longest"].into_iter().find(|group| shape.name.starts_with(group));
    shape.name.contains(wanted) && hard.is_none_or(|group| wanted.contains(group))
}

/// All galleys. Those of a chain are twice as large each time; most are a chain of their own.
pub fn chains() -> Vec<Vec<Shape>> {
    let lines = [500, 1_000, 2_000, 4_000];
    let figures = [25, 50, 100, 200];
    let alone = HANDBOOKS.iter().chain(&WIDE).chain(&TABLED).chain(&WEIGHTED).chain(&WORST).chain(&LONGEST);
    let mut chains: Vec<Vec<Shape>> = alone.map(|&shape| vec![shape]).collect();
    chains.push(lines.map(|lines| Shape { lines, figures: 50, ..HANDBOOK }).to_vec());
    chains.push(figures.map(|figures| Shape { figures, ..HANDBOOK }).to_vec());
    chains.push(lines.map(|lines| Shape { lines, figures: 50, tried: Tried::Plain, ..FLAT }).to_vec());
    chains.push(figures.map(|figures| Shape { figures, ..FLAT }).to_vec());
    chains.push(
        lines.map(|lines| Shape { name: "height 0 with tables", lines, figures: 50, tables: 10, ..FLAT }).to_vec(),
    );
    chains
}

struct Numbers(u64);

impl Numbers {
    /// The next number, from `least` to `most`.
    fn between(&mut self, least: u32, most: u32) -> u32 {
        self.0 = self.0.wrapping_mul(6_364_136_223_846_793_005).wrapping_add(1_442_695_040_888_963_407);
        least + ((self.0 >> 33) % u64::from(most - least + 1)) as u32
    }
}

pub struct Galley {
    pub bytes: Vec<u8>,
    /// G, the most consecutive figures that fit a page.
    pub most_figures: u32,
}

pub fn galley(shape: Shape) -> Galley {
    chapter(shape, 0)
}

/// One of several galleys of a shape. Paragraphs have 2 to 9 lines whose first and last line stay with their neighbours, and more
/// space after the last.
pub fn chapter(shape: Shape, number: u64) -> Galley {
    let mut numbers = Numbers(20_261_115 + number);
    let mut bytes = Vec::new();
    let spec = match shape.setting {
        Setting::Typeset => [PAGE / 10 * 9, PAGE, 1_600, 2_200],
        Setting::Loose => [PAGE / 10 * 9, PAGE, 100, 100],
        Setting::Bare => [0, PAGE, 0, 0],
    };
    let spec = [&spec[..], &[shape.sides, shape.weights.0, shape.weights.1]].concat();
    match shape.end {
        End::Full => record(&mut bytes, b"G2", &[&spec[..], &[PAGE]].concat()),
        _ => record(&mut bytes, b"GS", &spec),
    }
    let mut left = 0;
    for number in 1..=shape.lines {
        let first = left == 0;
        if first {
            left = numbers.between(2, 9);
        }
        left -= 1;
        let (most, end) = match (shape.setting, left) {
            (Setting::Bare, _) => (0, 1),
            (Setting::Loose, _) => (200, 1),
            (Setting::Typeset, 0) => (600, 1),
            (Setting::Typeset, 1) => (20, 0),
            (Setting::Typeset, _) => (20, u32::from(!first)),
        };
        let end = match shape.end {
            End::Unbroken(lines) if number + lines > shape.lines => 0,
            _ => end,
        };
        let height = match (shape.end, shape.line_height) {
            (End::Line(height), _) if number == shape.lines => height,
            (End::Full, _) if number == shape.lines => 1,
            (_, (least, most)) if least < most => numbers.between(least, most),
            (_, (height, _)) => height,
        };
        record(&mut bytes, b"TL", &[height, 0, most, end]);
    }
    let citing = match shape.cited {
        Cited::AtRandom => (1, shape.lines),
        Cited::ByTheFirstLine => (1, 1),
        Cited::ByTheLastLine => (shape.lines, shape.lines),
    };
    let (least, most) = match shape.setting {
        Setting::Typeset => (1_000, 1_400),
        Setting::Loose => (0, 500),
        Setting::Bare => (0, 0),
    };
    let mut heights = Vec::new();
    for (mark, count) in [(b"FG", shape.figures), (b"TB", shape.tables)] {
        let mut citations: Vec<u32> = (0..count).map(|_| numbers.between(citing.0, citing.1)).collect();
        citations.sort_unstable();
        for citation in citations {
            let height = numbers.between(shape.figure_height.0, shape.figure_height.1);
            record(&mut bytes, mark, &[height, least, most, citation]);
            heights.push(height);
        }
    }
    record(&mut bytes, b"ED", &[]);
    heights.truncate(shape.figures as usize);
    Galley { bytes, most_figures: most_on_page(&heights, least) }
}

fn record(galley: &mut Vec<u8>, mark: &[u8; 2], fields: &[u32]) {
    galley.extend_from_slice(mark);
    fields.iter().for_each(|field| galley.extend_from_slice(&field.to_be_bytes()));
}

/// The most consecutive figures that fit a page with so much space between them.
fn most_on_page(heights: &[u32], space: u32) -> u32 {
    let fits = |run: &[u32]| run.iter().sum::<u32>() + space * (run.len() as u32 - 1) <= PAGE;
    (1..=heights.len()).take_while(|&count| heights.windows(count).any(fits)).count() as u32
}
