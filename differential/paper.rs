// The board paper, from the words of request K2: pages of a heading, 48 rows and a foot, each line of 64 columns.
use crate::reference::{word, Status, Witness};
use std::cmp::Reverse;

const COLUMNS: usize = 64;
pub const ROWS: usize = 48;

// A paper of 512 checkpoints: 11 pages of 50 lines of 65 bytes.
pub const LONGEST: usize = 35_750;

// A link into a checkpoint: the place of its source, how many members are behind it, and the sum of their bonds.
#[derive(Clone, Copy)]
pub struct Link {
    pub source: usize,
    pub members: usize,
    pub bond: u64,
}

// The link whose backing a row shows: of those with a justified source the one with the largest bond, and the lowest
// source place among equals. It needs no quorum.
pub fn shown(into: &[Link], status: &[Status]) -> Option<Link> {
    let justified = into.iter().copied().filter(|l| status[l.source].is_justified());
    justified.max_by_key(|l| (l.bond, Reverse(l.source)))
}

impl Witness {
    // All pages, in order.
    pub fn paper(&self) -> Vec<u8> {
        let rows = self.rows();
        let pages = rows.chunks(ROWS).zip(1..).map(|(rows, number)| page(number, rows));
        pages.collect::<String>().into_bytes()
    }

    // A row for every checkpoint, in place order.
    fn rows(&self) -> Vec<String> {
        let status = self.statuses();
        let links = self.links_into();
        let row_of = |p: usize| row(p, self.checkpoints[p].height, status[p], shown(&links[p], &status));
        (0..self.checkpoints.len()).map(row_of).collect()
    }

    // The links into each checkpoint, in no order. No vote is held twice, so no member stands twice behind a link.
    pub fn links_into(&self) -> Vec<Vec<Link>> {
        let mut into = vec![Vec::new(); self.checkpoints.len()];
        for ((source, target), behind) in &self.links {
            let bond = behind.iter().map(|id| self.bonds[id]).sum();
            into[*target].push(Link { source: *source, members: behind.len(), bond });
        }
        into
    }
}

// Two blanks between fields; the standing is set to the left and numbers to the right. Zeros where no link is shown.
fn row(place: usize, height: u32, status: Status, shown: Option<Link>) -> String {
    let (members, bond) = shown.map_or((0, 0), |l| (l.members, l.bond));
    format!("{place:>5}  {height:>10}  {:<12}  {members:>5}  {bond:>24}", word(status))
}

// The rows that the last page lacks are blanks.
fn page(number: usize, rows: &[String]) -> String {
    let mut lines = vec![format!("page {number}")];
    lines.extend_from_slice(rows);
    lines.resize(1 + ROWS, String::new());
    lines.push("-".repeat(COLUMNS));
    lines.iter().map(|line| format!("{line:<COLUMNS$}\n")).collect()
}
