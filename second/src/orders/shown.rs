//! What an order shows about a writer. A run in which something of this was never seen
//! has compared too little.

use crate::block::{stretch, Record, BLOCK_LENGTH, HUNDREDTH, UNIT, USUAL_CELLS};
use crate::family::USGS;
use crate::meaning::VOID_CELL;
use crate::pointless;
use crate::record_a::{self, Header};
use crate::sender::{parts_of, Outcome};
use crate::spots;
use crate::write::fits;
use crate::written;

/// What sheets that were sent show, by name.
type OfSheets = (&'static str, fn(&SentSheet) -> bool);

/// What orders that were refused, or bad, show.
type OfRefusals = (&'static str, fn(&View) -> bool);

const SENT: &[OfSheets] = &[
    ("geographic", |s| s.header.system == 0),
    ("UTM", |s| s.header.system == 1),
    ("state plane", |s| s.header.system == 2),
    ("ground in feet", |s| s.header.ground_unit == 1),
    ("heights in feet", |s| s.header.vertical_unit == 1),
    ("heights in metres", |s| s.header.vertical_unit == 2),
    ("z spacing 1", |s| s.header.z_spacing == UNIT),
    ("z spacing 0.1", |s| s.header.z_spacing == UNIT / 10),
    ("z spacing 0.01", |s| s.header.z_spacing == HUNDREDTH),
    ("spacing 9999", |s| s.header.x_spacing == 9999 * UNIT),
    ("corners below zero", |s| s.lies_below_zero()),
    ("template with accuracy 1", |s| s.header.accuracy == 1),
    ("template of fewer profiles", |s| s.header.n < s.columns()),
    ("template kept as it is", |s| s.template_is_kept),
    ("template, no point in a corner", |s| s.has_no_point("SW x")),
    ("template, no point in an extreme", |s| {
        s.has_no_point("sheet's least")
    }),
    ("template, no point in the angle", |s| {
        s.has_no_point("angle")
    }),
    ("template, no point in x spacing", |s| {
        s.has_no_point("x spacing")
    }),
    ("template, no point in y spacing", |s| {
        s.has_no_point("y spacing")
    }),
    ("template, no point in z spacing", |s| {
        s.has_no_point("z spacing")
    }),
    ("x spacing as 300000E+02", |s| s.has_an_old_spacing()),
    ("cells just enough", |s| s.spare.is_empty()),
    ("cells to spare", |s| !s.spare.is_empty()),
    ("unfit cells to spare", |s| s.spares_an_unfit_cell()),
    ("one cell", |s| s.cells.len() == 1),
    ("15,000 cells", |s| s.cells.len() == USUAL_CELLS),
    ("2048 columns", |s| s.columns() == 2048),
    ("all void", |s| s.spans().all(|span| span.is_none())),
    ("one column filled", |s| s.spans().flatten().count() == 1),
    ("one column void", |s| s.void_columns() == 1),
    ("voids below", |s| s.has_span(|span| span.below > 0)),
    ("voids above", |s| s.has_span(|span| span.above > 0)),
    ("voids inside", |s| s.has_span(|span| span.inside > 0)),
    ("profile of 1", |s| s.has_profile_of(1)),
    ("profile of 146", |s| s.has_profile_of(146)),
    ("profile of 147", |s| s.has_profile_of(147)),
    ("profile of 316", |s| s.has_profile_of(316)),
    ("profile of 317", |s| s.has_profile_of(317)),
    ("profile of 2048", |s| s.has_profile_of(2048)),
    ("height of 32767 steps", |s| s.has_height(32767)),
    ("height of -32766 steps", |s| s.has_height(-32766)),
    ("height of -1 step", |s| s.has_height(-1)),
    ("height of 0 steps", |s| s.has_height(0)),
    ("steps of 1 digit", |s| s.has_steps(false, 1)),
    ("steps of 2 digits", |s| s.has_steps(false, 2)),
    ("steps of 3 digits", |s| s.has_steps(false, 3)),
    ("steps of 4 digits", |s| s.has_steps(false, 4)),
    ("steps of 5 digits", |s| s.has_steps(false, 5)),
    ("steps of a minus and 1 digit", |s| s.has_steps(true, 1)),
    ("steps of a minus and 2 digits", |s| s.has_steps(true, 2)),
    ("steps of a minus and 3 digits", |s| s.has_steps(true, 3)),
    ("steps of a minus and 4 digits", |s| s.has_steps(true, 4)),
    ("steps of a minus and 5 digits", |s| s.has_steps(true, 5)),
];

const REFUSED: &[OfRefusals] = &[
    ("refused 1, empty input", |v| v.input.is_empty()),
    ("refused 1, 1,023 bytes", |v| v.input.len() == 1023),
    ("refused 5 1", |v| v.refused(5, 1)),
    ("refused 5 865", |v| v.refused(5, 865)),
    ("refused 7, no point in the template", |v| {
        v.refused_without_point(7)
    }),
    ("refused 8, no point in the template", |v| {
        v.refused_without_point(8)
    }),
    ("refused 10 547", |v| v.refused(10, 547)),
    ("refused 10 817", |v| v.refused(10, 817)),
    ("refused 10 859", |v| v.refused(10, 859)),
    ("5 to 10 before 12", |v| v.bad_template() && v.no_cells()),
    ("5 to 10 before 13", |v| v.bad_template() && v.unfit_start()),
    ("12, no cells", |v| v.refused(12, 0) && v.no_cells()),
    ("12, one too few", |v| v.refused(12, 0) && v.lacks_one()),
    ("12 before 13", |v| v.refused(12, 0) && v.unfit_start()),
    ("13 at the first cell", |v| v.refused(13, 0)),
    ("13 at the last cell", |v| v.refused_at_the_last_cell()),
    ("13, -32767 steps", |v| v.refused_steps(-32767)),
    ("13, 32768 steps", |v| v.refused_steps(32768)),
    ("13, between two steps", |v| v.refused_between_steps()),
    ("bad input, part of a cell", |v| v.bad_in_a_cell()),
    ("bad input, 15,001 cells", |v| v.input.len() == 61_028),
    ("bad input, bad template", |v| v.bad() && v.header.is_none()),
];

/// The names of all that orders show.
pub fn names() -> Vec<String> {
    let sent = SENT.iter().map(|&(name, _)| name);
    let refused = REFUSED.iter().map(|&(name, _)| name);
    let mut names: Vec<String> = sent.chain(refused).map(String::from).collect();
    // The template is a record A.
    names.extend(spots::wanted(USGS, &[Record::Header]));
    names
}

/// The names of all that this order shows.
pub fn shown(input: &[u8], outcome: &Outcome) -> Vec<String> {
    let view = View {
        input,
        outcome,
        header: record_a::check(&input[..input.len().min(BLOCK_LENGTH)]).ok(),
        cells: parts_of(input).map_or(Vec::new(), |parts| parts.cells),
    };
    let sheet = view.sent_sheet();
    let by_sheet = |holds: fn(&SentSheet) -> bool| sheet.as_ref().is_some_and(holds);
    let by_refusal = |holds: fn(&View) -> bool| sheet.is_none() && holds(&view);
    let of_sheets = SENT.iter().filter(|(_, holds)| by_sheet(*holds));
    let of_refusals = REFUSED.iter().filter(|(_, holds)| by_refusal(*holds));
    let names = of_sheets.map(|&(name, _)| name);
    let names = names.chain(of_refusals.map(|&(name, _)| name));
    names.map(String::from).chain(view.spot()).collect()
}

/// An order and what came of it.
struct View<'a> {
    input: &'a [u8],
    outcome: &'a Outcome,
    /// None unless the template is valid.
    header: Option<Header>,
    /// None at all if the input is bad.
    cells: Vec<i32>,
}

/// A sheet that was sent, with what its template said.
struct SentSheet<'a> {
    header: &'a Header,
    cells: &'a [i32],
    spare: &'a [i32],
    template: &'a [u8],
    /// Block 0 came out as the template was.
    template_is_kept: bool,
}

/// Where the filled cells of a column lie; `length` rows from the first to the last.
struct Span {
    below: usize,
    length: usize,
    above: usize,
    /// Voids between the first and the last.
    inside: usize,
}

fn span_of(column: &[i32]) -> Option<Span> {
    let filled = |&cell: &i32| cell != VOID_CELL;
    let below = column.iter().position(filled)?;
    let last = column.iter().rposition(filled)?;
    let within = &column[below..=last];
    Some(Span {
        below,
        length: within.len(),
        above: column.len() - 1 - last,
        inside: within.iter().filter(|&&cell| cell == VOID_CELL).count(),
    })
}

impl SentSheet<'_> {
    fn columns(&self) -> i64 {
        self.header.columns().count()
    }

    fn spans(&self) -> impl Iterator<Item = Option<Span>> + '_ {
        let rows = self.header.rows().count() as usize;
        self.cells.chunks(rows).map(span_of)
    }

    fn has_span(&self, wanted: fn(&Span) -> bool) -> bool {
        self.spans().flatten().any(|span| wanted(&span))
    }

    fn has_profile_of(&self, posts: usize) -> bool {
        self.spans().flatten().any(|span| span.length == posts)
    }

    fn void_columns(&self) -> usize {
        self.spans().filter(Option::is_none).count()
    }

    fn has_height(&self, steps: i64) -> bool {
        let wanted = steps * self.header.step();
        self.cells.iter().any(|&cell| i64::from(cell) == wanted)
    }

    /// A height of so many digits, below zero or not: each leaves another number of blanks
    /// before it in its six bytes.
    fn has_steps(&self, below_zero: bool, digits: usize) -> bool {
        let filled = self.cells.iter().filter(|&&cell| cell != VOID_CELL);
        let mut steps = filled.map(|&cell| i64::from(cell) / self.header.step());
        steps.any(|n| (n < 0) == below_zero && n.unsigned_abs().to_string().len() == digits)
    }

    /// The real of this name in the template, which is written anew with a point.
    fn has_no_point(&self, name: &str) -> bool {
        let names = pointless::shown(USGS, Record::Header, self.template, (0, 0));
        let start = format!("{name}, ");
        names.iter().any(|shown| shown.starts_with(&start))
    }

    /// Six digits and an exponent, as the writer's own spelling has them behind its point.
    fn has_an_old_spacing(&self) -> bool {
        let own = written::spacing(self.header.x_spacing);
        stretch(self.template, 817, 828).trim_ascii() == &own[2..]
    }

    fn lies_below_zero(&self) -> bool {
        self.header.corners.iter().all(|&value| value < 0)
    }

    fn spares_an_unfit_cell(&self) -> bool {
        let step = self.header.step();
        self.spare.iter().any(|&cell| !fits(cell, step))
    }
}

/// Past what a post can say even in steps of one unit.
fn unfit_for_all(cell: i32) -> bool {
    cell != VOID_CELL && cell.abs() > 3_276_700
}

impl View<'_> {
    fn sent_sheet(&self) -> Option<SentSheet<'_>> {
        let Outcome::Sent(blocks) = self.outcome else {
            return None;
        };
        let header = self.header.as_ref()?;
        let (cells, spare) = self.cells.split_at(header.cells());
        Some(SentSheet {
            header,
            cells,
            spare,
            template: &self.input[..BLOCK_LENGTH],
            template_is_kept: blocks[0][..] == self.input[..BLOCK_LENGTH],
        })
    }

    fn refused(&self, kind: u32, number: u32) -> bool {
        *self.outcome == Outcome::Refused { kind, number }
    }

    fn refused_without_point(&self, kind: u32) -> bool {
        match *self.outcome {
            Outcome::Refused { kind: told, number } if told == kind => {
                let template = &self.input[..BLOCK_LENGTH];
                let names = pointless::shown(USGS, Record::Header, template, (kind, number));
                !names.is_empty()
            }
            _ => false,
        }
    }

    /// Where in its field the template's form is wrong.
    fn spot(&self) -> Option<String> {
        match *self.outcome {
            Outcome::Refused { kind, number } => spots::shown(USGS, Record::Header, (kind, number)),
            _ => None,
        }
    }

    fn bad(&self) -> bool {
        *self.outcome == Outcome::BadInput
    }

    fn bad_template(&self) -> bool {
        matches!(self.outcome, Outcome::Refused { kind: 5..=10, .. })
    }

    fn no_cells(&self) -> bool {
        self.cells.is_empty()
    }

    /// The first cell is unfit; for any sheet at all if the template is no help.
    fn unfit_start(&self) -> bool {
        match (self.cells.first(), &self.header) {
            (Some(&cell), Some(header)) => !fits(cell, header.step()),
            (Some(&cell), None) => unfit_for_all(cell),
            (None, _) => false,
        }
    }

    fn bad_in_a_cell(&self) -> bool {
        self.bad() && !self.input.len().is_multiple_of(4)
    }

    fn lacks_one(&self) -> bool {
        let header = self.header.as_ref();
        header.is_some_and(|header| header.cells() == self.cells.len() + 1)
    }

    fn refused_at_the_last_cell(&self) -> bool {
        let last = self.header.as_ref().map_or(0, Header::cells) as u32;
        last > 1 && self.refused(13, last - 1)
    }

    /// Height and step of the cell that kind 13 names.
    fn refused_height(&self) -> Option<(i64, i64)> {
        let header = self.header.as_ref()?;
        match *self.outcome {
            Outcome::Refused { kind: 13, number } => {
                let height = i64::from(self.cells[number as usize]);
                Some((height, header.step()))
            }
            _ => None,
        }
    }

    fn refused_steps(&self, steps: i64) -> bool {
        let found = self.refused_height();
        found.is_some_and(|(height, step)| height == steps * step)
    }

    fn refused_between_steps(&self) -> bool {
        let found = self.refused_height();
        found.is_some_and(|(height, step)| height % step != 0)
    }
}
