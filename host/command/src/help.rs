//! What the help of each command says besides its arguments: a screen of 80 columns at most. docs/COMMAND.md has more.

pub const WHOLE: &str = "\
`barleychime help COMMAND` says more of a command, `barleychime refusals` of
answers. `barleychime man` prints the manual page, `barleychime completions
SHELL` the completions for bash, zsh or fish. A file called - is standard
input. Exit status: 0 success, 1 refused, 2 an error.";

pub const MAKE: &str = "\
Prints `p X Y T W`: pages, turns to figures and tables, turns from first page
to last, weighted turns, white space. Then prints `q i j` for each page q: the
lines and figures placed so far. A galley with tables has `q i j d`.
No list has fewer turns, and none with as few has less white space.";

pub const BOOK: &str = "\
Prints `p X Y T W` of the book, then for each chapter its first folio, its
number of pages and its name, and its pages as `make` prints them. The first
chapter opens on its own folio, `FO` or 1. Each later one opens on the folio
after the last page before it. All have the page specification of the first.
No choice of lists has fewer turns.";

pub const FORECAST: &str = "\
Reads a galley without making it. Prints the memory that making needs, a
ceiling on the pages weighed, and a time, which is an estimate.";

pub const MARK: &str = "\
Prints a row for each list, with its name if there are several: `p X Y T W` if
it is valid, `R number place` if it is not, `?` if it cannot be read. Standard
error has the reasons. A list is what `make` prints, or `i j` or `q i j` for
each page, with d if there are tables. CSV is taken too. `#` opens a comment.
The numbers of a head line are compared with the marking.";

pub const EXPLAIN: &str = "\
Says of each page what it holds, its heights and those that are asked, its
white space, and the turns that each figure and each table costs. If a list is
refused, it names every rule that each page breaks, with the numbers. Heights
are in hundredths of a point.";

pub const DESK: &str = "\
Reads calls from standard input, a line each, and answers each with a line;
`help` names them. `ask PAGE I J` tries another end of a page, `commit` puts it
in force, `list` prints the list in force. A refusal is `R number place`, and
`?` answers a line that is no call. Standard error has the reasons.";

pub const SHOW: &str = "\
Writes one HTML file that needs no network: the galley, its lists and the
engine are inside, so that it can be mailed, looked at, worked on and printed.
Three lists and more open as the report on a class. Without --out it is written
beside the galley, with .html for its ending.";

pub const PACK: &str = "\
One record a line, in this order. Lengths are in hundredths of a point:
  GS htMin htMax sMin sMax sides alpha beta   the page specification
  G2 htMin ... beta lastMin                   or this, with a last page's least
  FO folio                                    the first folio, if it is not 1
  TL height least most end                    a line, the space after it, 1 if a
                                              page may end there, else 0
  FG height least most line                   a figure, the line that cites it
  FK height least most line                   a figure kept with the next one
  TB height least most line                   a table
  ED                                          the end
`#` opens a comment. Nothing is written if the galley would be refused.";

pub const UNPACK: &str = "\
`barleychime pack` gives the same bytes back. If the galley is refused, its
whole records are written as they stand, and the exit status is 1.";

pub const REPORT: &str = "\
Makes the galley once, marks every list, and prints sums of p, X, Y and T over
the lists that are accepted, the least and the greatest T, and the excess over
the engine's. Lists that are refused or cannot be read are no papers, and are
counted apart. A list that cannot be read makes the exit status 2.";

pub const FOLD: &str = "\
Sections have 4, 8, ..., 64 pages. A line for each of the nested sheets, the
outermost first: left and right page of its front, then of its back.";

pub const TEX: &str = "\
The document says \\usepackage{barleychime}. LuaLaTeX and the engine run by
turns until nothing changes, at most ten times. A line for each galley then has
X + Y of LaTeX's own pages and of the list's, and the last line has the PDF. If
no pagination exists, LaTeX makes the pages, and a remark says what would help.";

pub const REFUSALS: &str = "\
A refusal is an answer, `R number place`, and the exit status 1.";

pub const COMPLETIONS: &str = "\
Bash: barleychime completions bash > ~/.local/share/bash-completion/completions/barleychime
Zsh, in a folder of $fpath: barleychime completions zsh > _barleychime
Fish: barleychime completions fish > ~/.config/fish/completions/barleychime.fish";

pub const MAN: &str = "\
Try `barleychime man | man -l -`.";
