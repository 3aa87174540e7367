//! Holds the static library beside the Rust, in one process, on recordings. See compare.sh.
//!
//!   compare NAMES                       on those that the file NAMES lists, a name a line
//!   compare NAMES --damage SEED COUNT   on COUNT made from those in memory, each by one to four seeded damages
//!
//! The oracle's program is part of this one (ORACLE_MAIN names a copy of its main.rs whose `main` is renamed), so the Rust runs here,
//! unchanged. So is the amended oracle's (AMENDED_MAIN; see amend.py): where the Rust panics on a channel's name with a block_len under
//! 24, what is expected is the amended Rust's answer, and everywhere else both must answer alike. All seven entries are called: compared
//! are all words of the tables, listing and tree byte for byte, or the refusal's four numbers and all lent memory zero. The Rust does not
//! answer which link the walk followed to a block (document 02, order 3): a walk of its own says it here, whose order of visits and listed blocks
//! must be the Rust's; the paths are drawn from that. The Rust has no clear list either: its bytes are drawn here from the Rust's rows by
//! the text of document 01 and of document 02's order 1. What the preview counts and the blanker leaves is drawn from these ranges, byte by
//! byte; of all other calls the recording must be as it was. Blanking must change neither the Rust's answers nor the library's, but that
//! the preview counts 0 throughout, and the blanker changes no byte again. Of accepted recordings, and of what their blanking leaves, the
//! lent lengths are varied: all just long enough, then each table or the counts a word short and the output a byte short (10 to 14). That
//! is done for one damaged recording in eight; for the others with the scratch table, the counts and the path table only. Paths are asked
//! for with up to 24 rows, or four, spread over all of them, with the ID, the header and three offsets that have no row. All lent memory is
//! filled with ones before each call, and so is one word or byte behind it and behind the recording, which must stay.
//!
//! Clear list, preview and blanker refuse an unfinalised recording with 16 (document 02, order 4), also where gap table, scratch table,
//! counts and output are short or empty, but not before the walk's own refusals. A copy with both words 0 is held as well, as any
//! recording.
//!
//! Only recordings of at most 8,192 bytes are damaged, so that a million take minutes. Damaged are single bytes, the identification's
//! fields, marks, block_len and links_nr, links, and the fields behind them; bytes are appended, linked blocks copied elsewhere, and
//! recordings cut. Blocks are those that the Rust lists and those that their links lead to; where it refuses, those whose marks are
//! found. What is made depends on SEED, the index and the recordings of NAMES, nothing else.
//!
//! Prints each recording that differs or whose answer by the Rust has no number, then counts. With --damage, such a recording is
//! written beside the program as differs-SEED-INDEX.mf4, and the status is 1 if any differs: small recordings reach none of the
//! differences that the oracle has no number for.
include!(env!("ORACLE_MAIN"));

/// `asked`: what the oracle around it answers. `panicked`: keeps a panic for it.
macro_rules! asked {
    () => {
        pub(crate) fn asked(data: &[u8]) -> crate::Want {
            let answer = ask(data);
            match answer {
                Answer::Accepted(a) => {
                    let Tables { visited, blocks, links, gaps } = tables(data, &a);
                    let blocks = crate::widened(data, &visited, &blocks, &links);
                    crate::Want::Accepted(crate::whole(data, crate::Rows { visited, blocks, links, gaps }, a.text, a.tree))
                }
                Answer::Error(_, Some(r)) | Answer::Panic(_, Some(r)) => crate::Want::Refused(r),
                Answer::Error(..) | Answer::Panic(..) => crate::Want::Unnumbered(for_people(&answer)),
            }
        }

        pub(crate) fn panicked(message: &str, file: &str, line: u32) {
            PANIC.with(|p| *p.borrow_mut() = Some(Panic { message: message.to_string(), file: file.to_string(), line }));
        }
    };
}

asked!();

mod amended {
    include!(env!("AMENDED_MAIN"));
    asked!();
}

#[link(name = "block_layout_c", kind = "static")]
extern "C" {
    fn block_layout_c_layout(
        data: *const u8, data_len: usize,
        visited: *mut u64, visited_len: usize,
        blocks: *mut u64, blocks_len: usize,
        links: *mut u64, links_len: usize,
        gaps: *mut u64, gaps_len: usize,
        answer: *mut u64, answer_len: usize,
    );
    fn block_layout_c_text(
        data: *const u8, data_len: usize,
        visited: *mut u64, visited_len: usize,
        blocks: *mut u64, blocks_len: usize,
        links: *mut u64, links_len: usize,
        gaps: *mut u64, gaps_len: usize,
        out: *mut u8, out_len: usize,
        answer: *mut u64, answer_len: usize,
    );
    fn block_layout_c_tree(
        data: *const u8, data_len: usize,
        visited: *mut u64, visited_len: usize,
        blocks: *mut u64, blocks_len: usize,
        links: *mut u64, links_len: usize,
        gaps: *mut u64, gaps_len: usize,
        out: *mut u8, out_len: usize,
        answer: *mut u64, answer_len: usize,
    );
    fn block_layout_c_path(
        data: *const u8, data_len: usize,
        visited: *mut u64, visited_len: usize,
        blocks: *mut u64, blocks_len: usize,
        links: *mut u64, links_len: usize,
        gaps: *mut u64, gaps_len: usize,
        path: *mut u64, path_len: usize,
        offset: u64,
        answer: *mut u64, answer_len: usize,
    );
    fn block_layout_c_clear(
        data: *const u8, data_len: usize,
        visited: *mut u64, visited_len: usize,
        blocks: *mut u64, blocks_len: usize,
        links: *mut u64, links_len: usize,
        gaps: *mut u64, gaps_len: usize,
        scratch: *mut u64, scratch_len: usize,
        out: *mut u8, out_len: usize,
        answer: *mut u64, answer_len: usize,
    );
    fn block_layout_c_preview(
        data: *const u8, data_len: usize,
        visited: *mut u64, visited_len: usize,
        blocks: *mut u64, blocks_len: usize,
        links: *mut u64, links_len: usize,
        gaps: *mut u64, gaps_len: usize,
        scratch: *mut u64, scratch_len: usize,
        counts: *mut u64, counts_len: usize,
        answer: *mut u64, answer_len: usize,
    );
    fn block_layout_c_blank(
        data: *mut u8, data_len: usize,
        visited: *mut u64, visited_len: usize,
        blocks: *mut u64, blocks_len: usize,
        links: *mut u64, links_len: usize,
        gaps: *mut u64, gaps_len: usize,
        scratch: *mut u64, scratch_len: usize,
        answer: *mut u64, answer_len: usize,
    );
}

#[derive(Clone, Copy, Debug, PartialEq)]
enum Entry {
    Layout,
    Text,
    Tree,
    Clear,
    Preview,
    Blank,
    /// With the offset asked for.
    Path(u64),
}

/// All but the path.
const ENTRIES: [Entry; 6] = [Entry::Layout, Entry::Text, Entry::Tree, Entry::Clear, Entry::Preview, Entry::Blank];

impl Entry {
    /// Whether it goes over the clear ranges: it takes a scratch table, and refuses unfinalised recordings.
    fn clears(self) -> bool {
        matches!(self, Entry::Clear | Entry::Preview | Entry::Blank)
    }

    fn has_output(self) -> bool {
        matches!(self, Entry::Text | Entry::Tree | Entry::Clear)
    }
}

/// What is lent besides the answer: words of five tables, of the counts and of the path, bytes of the output; a row of each, and the
/// refusal of one too short.
const LENT: [&str; 8] = ["visited", "blocks", "links", "gaps", "scratch", "counts", "path", "output"];
const ROW: [usize; 8] = [1, 14, 2, 2, 2, 1, 1, 1];
const SHORT: [u64; 8] = [10, 11, 12, 13, 13, 13, 13, 14];
const GAPS: usize = 3;
const SCRATCH: usize = 4;
const COUNTS: usize = 5;
const PATH: usize = 6;
const OUT: usize = 7;

type Lengths = [usize; 8];

/// Words of an answer.
const ANSWER: usize = 10;

/// What a call leaves: the answer, and the words and bytes in use. All others are zero. The recording is as it was, or as said here.
struct Exit<'a> {
    answer: [u64; ANSWER],
    tables: [&'a [u64]; 7],
    out: &'a [u8],
    left: Option<&'a [u8]>,
}

fn refusal(r: [u64; 4]) -> Exit<'static> {
    let mut answer = [0; ANSWER];
    answer[..4].copy_from_slice(&r);
    Exit { answer, tables: [&[]; 7], out: &[], left: None }
}

/// Lent memory and the recording, with one word or byte more than is lent.
#[derive(Default)]
struct Lent {
    answer: [u64; ANSWER + 1],
    tables: [Vec<u64>; 7],
    out: Vec<u8>,
    data: Vec<u8>,
}

impl Lent {
    fn fill(&mut self, data: &[u8], n: &Lengths) {
        self.data.clear();
        self.data.extend_from_slice(data);
        self.data.push(u8::MAX);
        self.answer.fill(u64::MAX);
        for (t, n) in self.tables.iter_mut().zip(n) {
            t.clear();
            t.resize(n + 1, u64::MAX);
        }
        self.out.clear();
        self.out.resize(n[OUT] + 1, u8::MAX);
    }

    fn call(&mut self, entry: Entry, data: &[u8], n: &Lengths) {
        self.fill(data, n);
        let [visited, blocks, links, gaps, scratch, counts, path] = &mut self.tables;
        macro_rules! lent {
            ($f:ident $(, $t:expr, $n:expr)* $(; $offset:expr)?) => {
                $f(
                    self.data.as_mut_ptr(), data.len(),
                    visited.as_mut_ptr(), n[0],
                    blocks.as_mut_ptr(), n[1],
                    links.as_mut_ptr(), n[2],
                    gaps.as_mut_ptr(), n[GAPS],
                    $($t.as_mut_ptr(), $n,)*
                    $($offset,)?
                    self.answer.as_mut_ptr(), ANSWER,
                )
            };
        }
        unsafe {
            match entry {
                Entry::Layout => lent!(block_layout_c_layout),
                Entry::Text => lent!(block_layout_c_text, self.out, n[OUT]),
                Entry::Tree => lent!(block_layout_c_tree, self.out, n[OUT]),
                Entry::Clear => lent!(block_layout_c_clear, scratch, n[SCRATCH], self.out, n[OUT]),
                Entry::Preview => lent!(block_layout_c_preview, scratch, n[SCRATCH], counts, n[COUNTS]),
                Entry::Blank => lent!(block_layout_c_blank, scratch, n[SCRATCH]),
                Entry::Path(offset) => lent!(block_layout_c_path, path, n[PATH]; offset),
            }
        }
    }

    /// The first part that isn't as the exit has it.
    fn differs(&self, data: &[u8], exit: &Exit) -> Option<String> {
        if self.answer[..ANSWER] != exit.answer || self.answer[ANSWER] != u64::MAX {
            return Some(format!("answer {:?}, wanted {:?}", &self.answer[..ANSWER], exit.answer));
        }
        if !is(&self.data, exit.left.unwrap_or(data), u8::MAX) {
            return Some("recording".to_string());
        }
        let table = (0..OUT).find(|k| !is(&self.tables[*k], exit.tables[*k], u64::MAX));
        table.or((!is(&self.out, exit.out, u8::MAX)).then_some(OUT)).map(|k| LENT[k].to_string())
    }

    fn check(&mut self, entry: Entry, data: &[u8], n: &Lengths, exit: &Exit, how: &str) -> Result<(), String> {
        self.call(entry, data, n);
        match self.differs(data, exit) {
            Some(what) => Err(format!("{entry:?}, {how}, lent {n:?}: {what}")),
            None => Ok(()),
        }
    }
}

/// Whether t is w, then zeros, then the one that is not lent.
fn is<T: PartialEq + Default>(t: &[T], w: &[T], last: T) -> bool {
    let n = t.len() - 1;
    n >= w.len() && t[..w.len()] == *w && t[w.len()..n].iter().all(|x| *x == T::default()) && t[n] == last
}

/// A block row: the Rust's twelve words, the block whose link was followed, the link's position.
type Row = [u64; 14];

/// Document 01's tables, as words, the block rows with order 3's two.
#[derive(PartialEq)]
struct Rows {
    visited: Vec<u64>,
    blocks: Vec<Row>,
    links: Vec<[u64; 2]>,
    gaps: Vec<[u64; 2]>,
}

/// An accepted recording as the oracle has it: rows, with and without tree marks, and texts; and the clear list drawn from the rows.
#[derive(PartialEq)]
struct Whole {
    rows: Rows,
    marked: Vec<Row>,
    text: String,
    tree: String,
    clear: Vec<u8>,
    scratch_rows: usize,
    /// Where refusals 10, 11 and 12 come if the table is a row short: the last block marked, listed, listed with links.
    places: [u64; 3],
}

#[derive(PartialEq)]
enum Want {
    Accepted(Whole),
    Refused([u64; 4]),
    Unnumbered(String),
}

/// The number that the oracle has for the Rust's panic on a channel's name with a block_len under 24. Nothing here answers it.
const SHORT_NAME: u64 = 8;

/// What is expected: the Rust's answer or, where an order changed it, the amended Rust's; and whether it is the latter.
fn want(data: &[u8]) -> (Want, bool) {
    let (rust, amended) = (asked(data), amended::asked(data));
    let changed = matches!(rust, Want::Refused([SHORT_NAME, ..]));
    assert!(changed || rust == amended, "the amended Rust differs");
    (amended, changed)
}

fn whole(data: &[u8], rows: Rows, text: String, tree: String) -> Whole {
    let mut marked = rows.blocks.clone();
    marked.iter_mut().for_each(|b| b[11] = 1);
    let spared = spared(data, &rows);
    let last = |f: &dyn Fn(&Row) -> bool| {
        let row = |v: &u64| row_at(&rows.blocks, *v).is_some_and(f);
        rows.visited.iter().copied().rfind(row).unwrap()
    };
    let places = [*rows.visited.last().unwrap(), last(&|_| true), last(&|b| b[7] > 0)];
    let clear = clear_list(data, &rows.gaps, &spared);
    Whole { places, clear, scratch_rows: spared.len(), marked, text, tree, rows }
}

/// The row of the block at the offset.
fn row_at<const N: usize>(blocks: &[[u64; N]], offset: u64) -> Option<&[u64; N]> {
    blocks.binary_search_by_key(&offset, |b| b[0]).ok().map(|k| &blocks[k])
}

/// As what the walk takes the target of a link.
#[derive(Clone, Copy)]
enum As {
    DataGroup,
    ChannelGroup,
    Channel,
    Source,
    Text,
    Region,
}

/// The positions of a block's links that the walk follows, in its order. Conversions are refused where they are entered.
fn onward(data: &[u8], at: u64, to: As) -> Vec<(As, u64)> {
    use As::*;
    let links_nr = u64_at(data, at + 16);
    match to {
        DataGroup => vec![(Text, 3), (ChannelGroup, 1), (Region, 2), (DataGroup, 0)],
        ChannelGroup => vec![(Text, 2), (Source, 3), (Text, 5), (Channel, 1), (ChannelGroup, 0)],
        Channel if data[at as usize + 88] == 1 => vec![(Text, 2), (Source, 3), (Text, 6), (Text, 7), (Region, 5), (Channel, 0)],
        Channel => vec![(Text, 2), (Source, 3), (Text, 6), (Text, 7), (Channel, 0)],
        Source => (0..links_nr.min(3)).map(|i| (Text, i)).collect(),
        Region if mark_at(data, at) == mark_of("##DL") => (1..links_nr).chain([0]).map(|i| (Region, i)).collect(),
        Text | Region => Vec::new(),
    }
}

/// The walk of an accepted recording: the offsets in the order in which they are marked; and for each that is listed, the block whose link
/// was followed and the link's position.
fn followed(data: &[u8]) -> (Vec<u64>, std::collections::BTreeMap<u64, [u64; 2]>) {
    let mut visits = vec![0, 64];
    let mut by = std::collections::BTreeMap::from([(0, [0, 0]), (64, [0, 0])]);
    let mut seen: std::collections::HashSet<u64> = visits.iter().copied().collect();
    // Links not followed yet, the next of them last.
    let mut left = vec![(As::DataGroup, 64, 0), (As::Text, 64, 5)];
    while let Some((to, block, position)) = left.pop() {
        let at = u64_at(data, block + 24 + 8 * position);
        let has = |n| (data.len() as u64).checked_sub(at).is_some_and(|left| left >= n);
        if at == 0 || matches!(to, As::Region) && !has(4) || !seen.insert(at) {
            continue;
        }
        visits.push(at);
        if has(24) {
            by.insert(at, [block, position]);
            left.extend(onward(data, at, to).into_iter().rev().map(|(to, i)| (to, at, i)));
        }
    }
    (visits, by)
}

/// The Rust's block rows with order 3's words. Stops unless the walk here visits and lists what the Rust does, by links that it shows.
fn widened(data: &[u8], visited: &[u64], blocks: &[[u64; 12]], links: &[[u64; 2]]) -> Vec<Row> {
    let (visits, by) = followed(data);
    assert!(visits == visited, "another order of visits");
    assert!(by.keys().eq(blocks.iter().map(|b| &b[0])), "other blocks are listed");
    let widen = |row: &[u64; 12]| {
        let [block, position] = by[&row[0]];
        let from = row_at(blocks, block).expect("a listed block");
        let shown = || position < from[7] && links[(from[6] + position) as usize][0] == row[0];
        assert!(row[0] == 0 || row[0] == 64 || shown(), "no such link is shown");
        let mut wide = [0; 14];
        wide[..12].copy_from_slice(row);
        wide[12..].copy_from_slice(&[block, position]);
        wide
    };
    blocks.iter().map(widen).collect()
}

/// The offsets from the header to the block at this one, both included; none for the ID and for an offset that no row has.
fn path_to(blocks: &[Row], offset: u64) -> Vec<u64> {
    if offset == 0 || row_at(blocks, offset).is_none() {
        return Vec::new();
    }
    let up = |at: &u64| (*at != 64).then(|| row_at(blocks, *at).expect("a listed block")[12]);
    let mut path: Vec<u64> = std::iter::successors(Some(offset), up).collect();
    path.reverse();
    path
}

/// The bytes of document 01's "Read, per listed block".
fn own_bytes(data: &[u8], at: u64, kind: u64) -> u64 {
    let (block_len, links_nr) = (u64_at(data, at + 8), u64_at(data, at + 16));
    match kind {
        1 | 3 => 64,
        2 => 104,
        4 => 24 + 8 * links_nr + 32,
        5 => 160,
        6 => 24 + 8 * links_nr + 3,
        7 | 8 => block_len.max(24),
        11 => {
            let behind = (at + 24 + 8 * links_nr) as usize;
            let fragments = u32::from_le_bytes(data[behind + 4..behind + 8].try_into().unwrap()) as u64;
            32 + 8 * links_nr + if data[behind] & 1 == 1 { 8 } else { 8 * fragments }
        }
        _ => 24,
    }
}

/// The range read of a channel's name, if any.
fn name_read(data: &[u8], target: u64) -> Option<[u64; 2]> {
    let left = (data.len() as u64).checked_sub(target)?;
    if target == 0 || left < 24 || mark_at(data, target) != mark_of("##TX") {
        return None;
    }
    let n = u64_at(data, target + 8).max(24);
    Some([target, target + if n <= left { n } else { 24 }])
}

/// Whether a link to the target leads to a block, listed or not (document 02, order 1).
fn is_block(data: &[u8], target: u64) -> bool {
    target != 0 && (data.len() as u64).checked_sub(target).is_some_and(|left| left >= 24) && data[target as usize..].starts_with(b"##")
}

/// What is never clear, a row of the scratch table each: document 01's read ranges, one for each listed block, channel name read, and
/// nonzero link with four bytes inside; and where such a link's target has a mark that starts with ## and 24 bytes inside, the 24 bytes
/// and the extent (document 02, order 1).
fn spared(data: &[u8], rows: &Rows) -> Vec<[u64; 2]> {
    let mut spared = Vec::new();
    for b in &rows.blocks {
        spared.push([b[0], b[0] + own_bytes(data, b[0], b[4])]);
        if b[4] == 5 {
            spared.extend(name_read(data, rows.links[b[6] as usize + 2][0]));
        }
    }
    let targets = rows.links.iter().map(|l| l[0]);
    for t in targets.filter(|t| *t != 0 && *t <= data.len() as u64 - 4) {
        if is_block(data, t) {
            let extent = u64_at(data, t + 8).min(data.len() as u64 - t);
            spared.extend([[t, t + 24], [t, t + extent]]);
        } else {
            spared.push([t, t + 4]);
        }
    }
    spared
}

/// The CLR bytes: the runs of bytes that lie in a gap and are in none of these ranges.
fn clear_list(data: &[u8], gaps: &[[u64; 2]], spared: &[[u64; 2]]) -> Vec<u8> {
    let mut clear = vec![false; data.len()];
    gaps.iter().for_each(|g| clear[g[0] as usize..g[1] as usize].fill(true));
    spared.iter().for_each(|r| clear[r[0] as usize..r[1] as usize].fill(false));
    let (mut ranges, mut at) = (Vec::new(), 0);
    for run in clear.chunk_by(|a, b| a == b) {
        let end = at + run.len() as u64;
        if run[0] {
            ranges.extend([at, end]);
        }
        at = end;
    }
    let mut clr = b"CLR\x01\0\0\0\0".to_vec();
    clr.extend(bytes_of(&[data.len() as u64, ranges.len() as u64 / 2]));
    clr.extend(bytes_of(&ranges));
    clr
}

/// The refusal of the recording's clear list if it is unfinalised (document 02, order 4).
fn unfinalized(data: &[u8]) -> Option<[u64; 4]> {
    let [standard, custom] = [60, 62].map(|at| u16::from_le_bytes([data[at], data[at + 1]]) as u64);
    (standard != 0 || custom != 0).then_some([16, 60, standard, custom])
}

/// The recording with the ranges of the CLR bytes zeroed.
fn blanked(data: &[u8], clr: &[u8]) -> Vec<u8> {
    let mut d = data.to_vec();
    for range in clr[24..].chunks(16) {
        d[u64_at(range, 0) as usize..u64_at(range, 8) as usize].fill(0);
    }
    d
}

/// What the preview and the blanker make of an accepted recording, drawn from the CLR bytes: how many bytes of each range are not 0, and
/// the recording with all of them zeroed.
struct Blanking {
    counts: Vec<u64>,
    left: Vec<u8>,
}

fn blanking(data: &[u8], clr: &[u8]) -> Blanking {
    let nonzero = |range: &[u8]| (u64_at(range, 0)..u64_at(range, 8)).filter(|at| data[*at as usize] != 0).count() as u64;
    Blanking { counts: clr[24..].chunks(16).map(nonzero).collect(), left: blanked(data, clr) }
}

impl Whole {
    fn exit<'a>(&'a self, entry: Entry, of: &'a Blanking) -> Exit<'a> {
        let t = &self.rows;
        let (blocks, out): (&[Row], &[u8]) = match entry {
            Entry::Layout | Entry::Preview | Entry::Blank | Entry::Path(_) => (&t.blocks, b""),
            Entry::Text => (&t.blocks, self.text.as_bytes()),
            Entry::Tree => (&self.marked, self.tree.as_bytes()),
            Entry::Clear => (&t.blocks, &self.clear),
        };
        let counts: &[u64] = if entry == Entry::Preview { &of.counts } else { &[] };
        let rows = [t.visited.len(), t.blocks.len(), t.links.len(), t.gaps.len(), out.len() + counts.len()].map(|n| n as u64);
        let mut answer = [0; ANSWER];
        answer[4..9].copy_from_slice(&rows);
        answer[9] = counts.iter().sum();
        let tables = [&t.visited, blocks.as_flattened(), t.links.as_flattened(), t.gaps.as_flattened(), &[], counts, &[]];
        Exit { answer, tables, out, left: (entry == Entry::Blank).then_some(&of.left) }
    }

    /// What a call for this path leaves: the tables as `layout` does.
    fn path_exit<'a>(&'a self, path: &'a [u64], of: &'a Blanking) -> Exit<'a> {
        let mut exit = self.exit(Entry::Layout, of);
        exit.answer[8] = path.len() as u64;
        exit.tables[PATH] = path;
        exit
    }

    /// Offsets to ask the path for: so many rows, spread over all, the ID, the header, and three without a row.
    fn asked_for(&self, data: &[u8], most: usize) -> Vec<u64> {
        let (rows, n) = (&self.rows.blocks, self.rows.blocks.len());
        let k = n.min(most);
        let spread = (0..k).map(|j| rows[j * (n - 1) / (k - 1)][0]);
        let inside = rows[n / 2][0] + 1;
        let others = [0, 64, inside, data.len() as u64, u64::MAX];
        let mut offsets: Vec<u64> = spread.chain(others).collect();
        offsets.sort();
        offsets.dedup();
        offsets
    }

    fn exact(&self, entry: Entry, of: &Blanking) -> Lengths {
        let exit = self.exit(entry, of);
        let [v, b, l, g, _, c, _] = exit.tables.map(|t| t.len());
        [v, b, l, g, if entry.clears() { 2 * self.scratch_rows } else { 0 }, c, 0, exit.out.len()]
    }

    /// The refusal if the k-th of the lent is a word or byte shorter than just enough.
    fn short(&self, k: usize, exact: &Lengths) -> [u64; 4] {
        let rows = (exact[k] / ROW[k]) as u64;
        if k < GAPS { [SHORT[k], self.places[k], rows - 1, 0] } else { [SHORT[k], 0, rows - 1, rows] }
    }
}

/// Where a mark may stand.
fn marks(data: &[u8]) -> impl Iterator<Item = u64> + '_ {
    (0..data.len().saturating_sub(23)).filter(|at| data[*at..].starts_with(b"##")).map(|at| at as u64)
}

/// The most links that a block here can show.
fn links_at(data: &[u8], at: u64) -> u64 {
    match &data[at as usize..][..4] {
        b"##HD" => 6,
        b"##DG" => 4,
        b"##CG" => 7,
        b"##CN" => 8,
        b"##SI" => 3,
        b"##DL" => Some(u64_at(data, at + 16)).filter(|n| *n <= (data.len() as u64 - at) / 8).unwrap_or(0),
        _ => 0,
    }
}

/// Lengths that suffice for any walk through the recording and aren't whole rows. Each row is shown once, and what is visited besides
/// ID and HD is a shown link's target. Clear ranges are at most one more than scratch rows, and a path has fewer words than there are rows.
fn plenty(entry: Entry, data: &[u8], out: usize) -> Lengths {
    let links = marks(data).map(|at| links_at(data, at)).sum::<u64>() as usize;
    let rows = links + 2;
    let scratch_rows = rows + 3 * links;
    let scratch = if entry.clears() { 2 * scratch_rows + 1 } else { 0 };
    let counts = if entry == Entry::Preview { scratch_rows + 3 } else { 0 };
    let path = if matches!(entry, Entry::Path(_)) { rows + 3 } else { 0 };
    [rows, 14 * rows + 5, 2 * links + 1, 2 * rows + 3, scratch, counts, path, if entry.has_output() { out + 7 } else { 0 }]
}

/// Whether the oracle has the same answer for the blanked recording.
fn same_blanked(blank: &[u8], w: &Whole) -> bool {
    matches!(want(blank).0, Want::Accepted(b) if b == *w)
}

/// Which of the lent are tried a word or byte short: every one, or those that only the entries over the clear ranges have.
fn tried<'a>(exact: &'a Lengths, every: bool) -> impl Iterator<Item = usize> + 'a {
    (0..LENT.len()).filter(move |k| exact[*k] > 0 && (every || *k == SCRATCH || *k == COUNTS))
}

/// Holds an entry that goes over the clear ranges on an unfinalised recording: the refusal after the walk, whatever is lent for what comes
/// behind it.
fn hold_unfinalized(lent: &mut Lent, entry: Entry, data: &[u8], w: &Whole, r: [u64; 4], every: bool) -> Result<(), String> {
    let exact = w.exact(entry, &blanking(data, &w.clear));
    lent.check(entry, data, &plenty(entry, data, w.clear.len()), &refusal(r), "unfinalised, plenty")?;
    lent.check(entry, data, &exact, &refusal(r), "unfinalised, exact")?;
    let [v, b, l, ..] = exact;
    lent.check(entry, data, &[v, b, l, 0, 0, 0, 0, 0], &refusal(r), "unfinalised, nothing for what follows the walk")?;
    for k in tried(&exact, every) {
        let mut n = exact;
        n[k] -= 1;
        let wanted = if k < GAPS { w.short(k, &exact) } else { r };
        lent.check(entry, data, &n, &refusal(wanted), &format!("unfinalised, {}", LENT[k]))?;
    }
    Ok(())
}

/// Holds the preview without counts: 13, behind the scratch table's.
fn hold_no_counts(lent: &mut Lent, data: &[u8], w: &Whole, exact: &Lengths) -> Result<(), String> {
    let mut n = *exact;
    n[COUNTS] = 0;
    lent.check(Entry::Preview, data, &n, &refusal([13, 0, 0, exact[COUNTS] as u64]), "no counts")?;
    n[SCRATCH] -= 1;
    lent.check(Entry::Preview, data, &n, &refusal(w.short(SCRATCH, exact)), "no counts, scratch")
}

/// Holds an entry on an accepted recording; with every length varied, or the scratch table's and the counts' only.
fn hold_entry(lent: &mut Lent, entry: Entry, data: &[u8], w: &Whole, of: &Blanking, every: bool) -> Result<(), String> {
    let (exit, exact) = (w.exit(entry, of), w.exact(entry, of));
    lent.check(entry, data, &plenty(entry, data, exit.out.len()), &exit, "plenty")?;
    if every || entry.clears() {
        lent.check(entry, data, &exact, &exit, "exact")?;
    }
    for k in tried(&exact, every) {
        let mut n = exact;
        n[k] -= 1;
        lent.check(entry, data, &n, &refusal(w.short(k, &exact)), LENT[k])?;
    }
    if exact[COUNTS] > 0 { hold_no_counts(lent, data, w, &exact) } else { Ok(()) }
}

/// Holds the path to one offset: with more than enough, exactly, the path table a word short and empty (13), and then the gap table's 13,
/// which comes first.
fn hold_path(lent: &mut Lent, offset: u64, data: &[u8], w: &Whole, of: &Blanking) -> Result<(), String> {
    let (entry, path) = (Entry::Path(offset), path_to(&w.rows.blocks, offset));
    let (exit, mut exact) = (w.path_exit(&path, of), w.exact(Entry::Layout, of));
    exact[PATH] = path.len();
    lent.check(entry, data, &plenty(entry, data, 0), &exit, "plenty")?;
    lent.check(entry, data, &exact, &exit, "exact")?;
    if path.is_empty() {
        return Ok(());
    }
    let mut n = exact;
    for words in [path.len() - 1, 0] {
        n[PATH] = words;
        lent.check(entry, data, &n, &refusal([13, 0, words as u64, path.len() as u64]), "path")?;
    }
    if n[GAPS] > 0 {
        n[GAPS] -= 1;
        lent.check(entry, data, &n, &refusal(w.short(GAPS, &exact)), "no path, gaps")?;
    }
    Ok(())
}

/// Holds the path entry on an accepted recording; with every length varied also where a table of the walk is a word short: 10, 11 and 12,
/// with no path table, come first.
fn hold_paths(lent: &mut Lent, data: &[u8], w: &Whole, of: &Blanking, every: bool) -> Result<(), String> {
    for offset in w.asked_for(data, if every { 24 } else { 4 }) {
        hold_path(lent, offset, data, w, of)?;
    }
    let exact = w.exact(Entry::Layout, of);
    for k in (0..GAPS).filter(|_| every) {
        let mut n = exact;
        n[k] -= 1;
        lent.check(Entry::Path(64), data, &n, &refusal(w.short(k, &exact)), &format!("no path, {}", LENT[k]))?;
    }
    Ok(())
}

/// Holds the library on what blanking leaves of an accepted recording: every entry answers as before, but that nothing is left to count.
fn hold_blanked(lent: &mut Lent, blank: &[u8], w: &Whole, every: bool) -> Result<(), String> {
    if !same_blanked(blank, w) {
        return Err("the oracle's answer changes".to_string());
    }
    let of = blanking(blank, &w.clear);
    assert!(of.left == blank && of.counts.iter().all(|n| *n == 0));
    ENTRIES.iter().try_for_each(|e| hold_entry(lent, *e, blank, w, &of, every))?;
    hold_paths(lent, blank, w, &of, every)
}

/// Holds the library on an accepted recording.
fn hold_accepted(lent: &mut Lent, data: &[u8], w: &Whole, every: bool) -> Result<(), String> {
    let (unfinalized, of) = (unfinalized(data), blanking(data, &w.clear));
    for entry in ENTRIES {
        match unfinalized {
            Some(r) if entry.clears() => hold_unfinalized(lent, entry, data, w, r, every)?,
            _ => hold_entry(lent, entry, data, w, &of, every)?,
        }
    }
    hold_paths(lent, data, w, &of, every)?;
    if unfinalized.is_none() && of.left != data {
        hold_blanked(lent, &of.left, w, every).map_err(|what| format!("blanked: {what}"))?;
    }
    Ok(())
}

/// Holds the library on a recording that the Rust refuses.
fn hold_refused(lent: &mut Lent, data: &[u8], r: [u64; 4]) -> Result<(), String> {
    ENTRIES.iter().try_for_each(|e| lent.check(*e, data, &plenty(*e, data, 24), &refusal(r), "refused"))?;
    for offset in [0, 64, 168, u64::MAX] {
        let mut n = plenty(Entry::Path(offset), data, 0);
        lent.check(Entry::Path(offset), data, &n, &refusal(r), "refused")?;
        n[PATH] = 0;
        lent.check(Entry::Path(offset), data, &n, &refusal(r), "refused, no path")?;
    }
    Ok(())
}

#[derive(Default)]
struct Tally {
    accepted: u64,
    /// With clear ranges, of an unfinalised one those of its copy with both words 0.
    cleared: u64,
    /// Of those, the ones that blanking changes.
    blanked: u64,
    varied: u64,
    /// Of the accepted ones.
    unfinalized: u64,
    refused: [u64; 10],
    /// Held to the amended Rust.
    changed: u64,
    unnumbered: u64,
    differ: u64,
}

impl Tally {
    fn held(&mut self, lent: &mut Lent, name: &dyn std::fmt::Display, data: &[u8], every: bool) -> Result<(), String> {
        let (want, changed) = want(data);
        self.changed += changed as u64;
        match want {
            Want::Accepted(w) => {
                self.accepted += 1;
                self.varied += every as u64;
                let is_unfinalized = unfinalized(data).is_some();
                self.unfinalized += is_unfinalized as u64;
                if !is_unfinalized {
                    self.count_clear(data, &w);
                }
                hold_accepted(lent, data, &w, every)?;
                if is_unfinalized {
                    self.held_finalized(lent, data, every).map_err(|what| format!("with both words 0: {what}"))?;
                }
                Ok(())
            }
            Want::Refused(r) => {
                self.refused[r[0] as usize] += 1;
                hold_refused(lent, data, r)
            }
            Want::Unnumbered(s) => {
                self.unnumbered += 1;
                println!("no number: {name}: {}", s.trim_end());
                Ok(())
            }
        }
    }

    fn count_clear(&mut self, data: &[u8], w: &Whole) {
        self.cleared += (w.clear.len() > 24) as u64;
        self.blanked += (blanked(data, &w.clear) != data) as u64;
    }

    /// Holds a copy with both words 0 to the oracle's answer for it. A link may lead to these bytes, so its rows may be others.
    fn held_finalized(&mut self, lent: &mut Lent, data: &[u8], every: bool) -> Result<(), String> {
        let mut copy = data.to_vec();
        copy[60..64].fill(0);
        match want(&copy).0 {
            Want::Accepted(w) => {
                self.count_clear(&copy, &w);
                hold_accepted(lent, &copy, &w, every)
            }
            Want::Refused(r) => hold_refused(lent, &copy, r),
            Want::Unnumbered(s) => Err(format!("no number: {}", s.trim_end())),
        }
    }

    /// Holds library and oracle on one recording, and prints it if they differ. A stop, as by the oracle's assertions, is a difference.
    fn hold(&mut self, lent: &mut Lent, name: &dyn std::fmt::Display, data: &[u8], every: bool) {
        let held = catch_unwind(AssertUnwindSafe(|| self.held(lent, name, data, every)));
        let held = held.unwrap_or_else(|_| {
            let p = PANIC.with(|p| p.borrow_mut().take()).expect("a caught panic has a record");
            Err(format!("stopped in {} line {}: {}", p.file, p.line, p.message))
        });
        if let Err(what) = held {
            self.differ += 1;
            println!("differs: {name}: {what}");
        }
    }

    fn print(&self) {
        let Tally { accepted, cleared, blanked, varied, unfinalized, refused, changed, unnumbered, differ } = self;
        let sum: u64 = refused.iter().sum();
        let each: Vec<String> = (1..10).filter(|k| refused[*k] > 0).map(|k| format!("{k}: {}", refused[k])).collect();
        println!("{accepted} accepted ({cleared} with clear ranges, {blanked} of them changed by blanking; {varied} with every length varied;");
        println!("{unfinalized} unfinalised: 16),");
        println!("{sum} refused ({}), {unnumbered} without a number;", each.join(", "));
        println!("{changed} of them held to the amended Rust; {differ} differ");
    }
}

/// Seeded numbers: splitmix64.
struct Rng(u64);

impl Rng {
    fn next(&mut self) -> u64 {
        self.0 = self.0.wrapping_add(0x9e3779b97f4a7c15);
        let z = (self.0 ^ (self.0 >> 30)).wrapping_mul(0xbf58476d1ce4e5b9);
        let z = (z ^ (z >> 27)).wrapping_mul(0x94d049bb133111eb);
        z ^ (z >> 31)
    }

    fn below(&mut self, n: u64) -> u64 {
        self.next() % n
    }

    fn pick<'a, T>(&mut self, xs: &'a [T]) -> &'a T {
        &xs[self.below(xs.len() as u64) as usize]
    }

    /// x, at most d more or less.
    fn near(&mut self, x: u64, d: u64) -> u64 {
        x.wrapping_sub(d).wrapping_add(self.below(2 * d + 1))
    }
}

const LARGEST: usize = 8192;

/// A place in a recording: its position and width, and the block that it belongs to.
#[derive(Clone, Copy)]
struct Field {
    at: u64,
    width: usize,
    block: u64,
}

/// A recording to be damaged: where its blocks (but the ID) start and end, their link fields, and the fields behind those.
struct Base {
    name: String,
    data: Vec<u8>,
    accepted: bool,
    blocks: Vec<[u64; 2]>,
    links: Vec<u64>,
    fields: Vec<Field>,
}

/// The fields behind a block's links that change the walk or are shown: place behind the links, width. Of texts the first bytes.
const BEHIND: [(&[u8; 4], &[(u64, usize)]); 8] = [
    (b"##HD", &[(0, 8), (8, 2), (12, 1), (13, 1), (14, 1)]),
    (b"##DG", &[(0, 1)]),
    (b"##CG", &[(0, 8), (8, 8), (16, 2), (24, 4), (28, 4)]),
    (b"##CN", &[(0, 1), (1, 1), (2, 1), (3, 1), (4, 4), (8, 4), (12, 4), (16, 4), (20, 1)]),
    (b"##SI", &[(0, 1), (1, 1), (2, 1)]),
    (b"##DL", &[(0, 1), (4, 4), (8, 8)]),
    (b"##TX", &[(0, 1), (1, 2), (3, 4)]),
    (b"##MD", &[(0, 1), (1, 2), (3, 4)]),
];

/// The ID's fields: file mark, the version's bytes, program, number, unfinalized flags.
const ID: [(u64, usize); 14] =
    [(0, 8), (8, 1), (9, 1), (10, 1), (11, 1), (12, 1), (13, 1), (14, 1), (15, 1), (16, 4), (20, 4), (28, 2), (60, 2), (62, 2)];

const MARKS: [&[u8; 4]; 18] = [
    b"##HD", b"##DG", b"##CG", b"##CN", b"##SI", b"##TX", b"##MD", b"##DT", b"##DV", b"##RD", b"##RV", b"##SD", b"##DL", b"##CC", b"##FH",
    b"##ZZ", b"#\xff\xfe#", b"\0\0\0\0",
];

impl Base {
    fn new(name: &str, data: Vec<u8>) -> Base {
        let (answer, _) = want(&data);
        let blocks: Vec<[u64; 3]> = match &answer {
            Want::Accepted(w) => w.rows.blocks.iter().filter(|b| b[4] != 1).map(|b| [b[0], b[1], b[7]]).chain(unlisted(&data, &w.rows)).collect(),
            _ => marks(&data).map(|at| [at, at.saturating_add(u64_at(&data, at + 8)), links_at(&data, at)]).collect(),
        };
        let links = blocks.iter().flat_map(|b| (0..b[2]).map(|i| b[0] + 24 + 8 * i)).filter(|at| at + 8 <= data.len() as u64).collect();
        let fields = blocks.iter().flat_map(|b| behind(&data, b[0])).collect();
        let accepted = matches!(answer, Want::Accepted(_));
        Base { name: name.to_string(), accepted, blocks: blocks.iter().map(|b| [b[0], b[1]]).collect(), links, fields, data }
    }
}

/// The blocks that links lead to and that are not listed: offset, end, and no links.
fn unlisted<'a>(data: &'a [u8], rows: &'a Rows) -> impl Iterator<Item = [u64; 3]> + 'a {
    let targets: std::collections::BTreeSet<u64> = rows.links.iter().map(|l| l[0]).filter(|t| is_block(data, *t)).collect();
    let others = targets.into_iter().filter(|t| row_at(&rows.blocks, *t).is_none());
    others.map(|t| [t, t.saturating_add(u64_at(data, t + 8)), 0])
}

fn behind(data: &[u8], block: u64) -> Vec<Field> {
    let mark = &data[block as usize..][..4];
    let places = BEHIND.iter().find(|(m, _)| *m == mark).map_or(&[][..], |(_, places)| places);
    let links = u64_at(data, block + 16).min(data.len() as u64 / 8);
    places.iter().map(|(at, width)| Field { at: block + 24 + 8 * links + at, width: *width, block }).collect()
}

/// Writes those of the bytes that lie inside.
fn put(data: &mut [u8], at: u64, bytes: &[u8]) {
    let at = data.len().min(at as usize);
    data[at..].iter_mut().zip(bytes).for_each(|(d, b)| *d = *b);
}

/// A number for a field: small, near what stands there, at the edges of the file, of 64 bits and of eight times it, or any.
fn value(rng: &mut Rng, data: &[u8], f: Field) -> u64 {
    let mut now = [0; 8];
    let from = data.len().min(f.at as usize);
    let to = data.len().min(from + f.width);
    now[..to - from].copy_from_slice(&data[from..to]);
    let (now, n) = (u64::from_le_bytes(now), data.len() as u64);
    match rng.below(16) {
        0 => 0,
        1 => 1,
        2 => 23 + rng.below(3),
        3 | 4 => rng.near(now, 1),
        5 => rng.near(now, 8),
        6 => rng.near(n, 8),
        7 => rng.near(n.wrapping_sub(f.block), 8),
        8 => rng.near(0u64.wrapping_sub(f.block), 8),
        9 => rng.near(1 << 32, 1),
        10 => rng.near(1 << 61, 8),
        11 => 0u64.wrapping_sub(1 + rng.below(32)),
        12 => 1 << rng.below(64),
        13 => now ^ (1 << rng.below(8 * f.width as u64)),
        14 => rng.below(256),
        _ => rng.next(),
    }
}

/// A link's target: none, a block, close to one, anywhere, close to the file's end or that of 64 bits.
fn target(rng: &mut Rng, base: &Base, data: &[u8]) -> u64 {
    let n = data.len() as u64;
    match rng.below(10) {
        0 => 0,
        1..=3 => rng.pick(&base.blocks)[0],
        4 => {
            let at = rng.pick(&base.blocks)[0];
            rng.near(at, 24)
        }
        5 => rng.below(n + 1),
        6 => n.wrapping_sub(*rng.pick(&[1, 3, 4, 5, 23, 24, 25, 64, 104, 160])),
        7 => n.wrapping_sub(1 + rng.below(32)),
        8 => n + rng.below(32),
        _ => 0u64.wrapping_sub(1 + rng.below(32)),
    }
}

/// Draws and does a damage of one kind; false if there's no place for it.
type Damage = fn(&mut Rng, &Base, &mut Vec<u8>) -> bool;

/// Each kind with its share. Few cuts and marks: most recordings are refused after them.
const DAMAGES: [(&str, u64, Damage); 10] = [
    ("byte", 5, byte),
    ("identification", 1, identification),
    ("mark", 2, mark),
    ("block_len", 3, |rng, base, data| header(rng, base, data, 8)),
    ("links_nr", 2, |rng, base, data| header(rng, base, data, 16)),
    ("field", 4, field),
    ("link", 6, link),
    ("copy", 2, copy),
    ("appended", 1, appended),
    ("cut", 1, cut),
];

fn byte(rng: &mut Rng, _: &Base, data: &mut Vec<u8>) -> bool {
    if data.is_empty() {
        return false;
    }
    let at = rng.below(data.len() as u64) as usize;
    data[at] = match rng.below(5) {
        0 => 0,
        1 => u8::MAX,
        2 => data[at] ^ (1 << rng.below(8)),
        3 => *rng.pick(b"\n 0.A\x7f\x80\x9f\xa0\xbf\xc2\xe0\xe2\xed\xf0\xf4"),
        _ => rng.next() as u8,
    };
    true
}

fn write_value(rng: &mut Rng, data: &mut Vec<u8>, f: Field) -> bool {
    let v = value(rng, data, f);
    put(data, f.at, &v.to_le_bytes()[..f.width]);
    true
}

fn identification(rng: &mut Rng, _: &Base, data: &mut Vec<u8>) -> bool {
    let (at, width) = *rng.pick(&ID);
    if (8..16).contains(&at) && rng.below(4) > 0 {
        put(data, at, &[*rng.pick(b"0123456789.+ \0")]);
        return true;
    }
    write_value(rng, data, Field { at, width, block: 0 })
}

fn mark(rng: &mut Rng, base: &Base, data: &mut Vec<u8>) -> bool {
    if base.blocks.is_empty() {
        return false;
    }
    let at = rng.pick(&base.blocks)[0];
    match rng.below(3) {
        0 => put(data, at + rng.below(4), &[rng.next() as u8]),
        _ => put(data, at, *rng.pick(&MARKS)),
    }
    true
}

/// The field at this place of a block's header.
fn header(rng: &mut Rng, base: &Base, data: &mut Vec<u8>, place: u64) -> bool {
    if base.blocks.is_empty() {
        return false;
    }
    let block = rng.pick(&base.blocks)[0];
    write_value(rng, data, Field { at: block + place, width: 8, block })
}

fn field(rng: &mut Rng, base: &Base, data: &mut Vec<u8>) -> bool {
    if base.fields.is_empty() {
        return false;
    }
    let f = *rng.pick(&base.fields);
    write_value(rng, data, f)
}

fn link(rng: &mut Rng, base: &Base, data: &mut Vec<u8>) -> bool {
    if base.links.is_empty() {
        return false;
    }
    let at = *rng.pick(&base.links);
    let to = target(rng, base, data);
    put(data, at, &to.to_le_bytes());
    true
}

/// What a link leads to, copied over other bytes, and the link leads there: so blocks overlap that the walk enters.
fn copy(rng: &mut Rng, base: &Base, data: &mut Vec<u8>) -> bool {
    if base.links.is_empty() {
        return false;
    }
    let link = *rng.pick(&base.links);
    let from = u64_at(&base.data, link);
    if !base.blocks.iter().any(|b| b[0] == from) {
        return false;
    }
    let end = base.data.len().min(from as usize + 24 + 8 * rng.below(20) as usize);
    let to = rng.below(data.len() as u64 + 1);
    put(data, to, &base.data[from as usize..end]);
    put(data, link, &to.to_le_bytes());
    true
}

fn appended(rng: &mut Rng, _: &Base, data: &mut Vec<u8>) -> bool {
    let zeros = rng.below(2) == 0;
    let n = 1 + rng.below(64);
    data.extend((0..n).map(|_| if zeros { 0 } else { rng.next() as u8 }));
    true
}

/// Cuts anywhere, close to the end, or at a block's start or end or behind its header, a byte more or less.
fn cut(rng: &mut Rng, base: &Base, data: &mut Vec<u8>) -> bool {
    let n = data.len() as u64;
    let block = if base.blocks.is_empty() { [0, 64] } else { *rng.pick(&base.blocks) };
    let at = match rng.below(5) {
        0 => rng.below(n + 1),
        1 => n.saturating_sub(rng.below(32)),
        2 => block[0],
        3 => block[1],
        _ => block[0] + 24,
    };
    data.truncate(rng.near(at, 1).min(n) as usize);
    true
}

/// One to four damages to the base, counted by kind; drawn again while nothing has changed.
fn damaged(rng: &mut Rng, base: &Base, counts: &mut [u64; DAMAGES.len()]) -> Vec<u8> {
    let all: u64 = DAMAGES.iter().map(|d| d.1).sum();
    let mut data = base.data.clone();
    while data == base.data {
        let mut left = *rng.pick(&[1, 1, 1, 2, 2, 3, 4]);
        while left > 0 {
            let (mut k, mut at) = (0, rng.below(all));
            while at >= DAMAGES[k].1 {
                at -= DAMAGES[k].1;
                k += 1;
            }
            if DAMAGES[k].2(rng, base, &mut data) {
                counts[k] += 1;
                left -= 1;
            }
        }
    }
    data
}

/// The recordings that the file lists, read one after the other.
fn listed(names: &str) -> impl Iterator<Item = (String, Vec<u8>)> {
    let names = std::fs::read_to_string(names).expect("a file of names");
    let names: Vec<String> = names.lines().map(String::from).collect();
    names.into_iter().map(|name| {
        let data = std::fs::read(&name).expect("a recording");
        (name, data)
    })
}

fn plain_run(names: &str) -> bool {
    let (mut lent, mut tally) = (Lent::default(), Tally::default());
    for (name, data) in listed(names) {
        tally.hold(&mut lent, &name, &data, true);
    }
    tally.print();
    true
}

fn damage_run(names: &str, seed: u64, count: u64) -> bool {
    let small = listed(names).filter(|(_, data)| data.len() <= LARGEST);
    let (accepted, refused): (Vec<Base>, Vec<Base>) = small.map(|(name, data)| Base::new(&name, data)).partition(|b| b.accepted);
    assert!(accepted.len() + refused.len() > 0, "no recording of at most {LARGEST} bytes");
    let (mut lent, mut tally, mut counts) = (Lent::default(), Tally::default(), [0; DAMAGES.len()]);
    for index in 0..count {
        // A generator for each, so that a recording doesn't depend on those before it.
        let mut rng = Rng(Rng(seed).next() ^ Rng(index).next());
        // Seven in eight from accepted ones: damage to a refused one rarely shows anything new.
        let from = if accepted.is_empty() || !refused.is_empty() && rng.below(8) == 0 { &refused } else { &accepted };
        let base = rng.pick(from);
        let data = damaged(&mut rng, base, &mut counts);
        let found = tally.differ + tally.unnumbered;
        tally.hold(&mut lent, &format_args!("seed {seed} index {index} from {}", base.name), &data, index % 8 == 0);
        if tally.differ + tally.unnumbered > found {
            let path = std::env::current_exe().unwrap().with_file_name(format!("differs-{seed}-{index}.mf4"));
            std::fs::write(path, &data).unwrap();
        }
    }
    println!("seed {seed}: {count} damaged, from {} accepted and {} refused recordings", accepted.len(), refused.len());
    tally.print();
    let each: Vec<String> = DAMAGES.iter().zip(counts).map(|(d, n)| format!("{} {n}", d.0)).collect();
    println!("damages: {}", each.join(", "));
    tally.differ == 0
}

fn compare() -> bool {
    std::panic::set_hook(Box::new(|info| {
        let message = match info.payload().downcast_ref::<&str>() {
            Some(s) => s.to_string(),
            None => info.payload().downcast_ref::<String>().cloned().unwrap_or_default(),
        };
        let l = info.location().unwrap();
        panicked(&message, l.file(), l.line());
        amended::panicked(&message, l.file(), l.line());
    }));
    let args: Vec<String> = std::env::args().skip(1).collect();
    let args: Vec<&str> = args.iter().map(String::as_str).collect();
    match args[..] {
        [names] => plain_run(names),
        [names, "--damage", seed, count] => damage_run(names, seed.parse().expect("a seed"), count.parse().expect("a count")),
        _ => panic!("compare NAMES [--damage SEED COUNT]"),
    }
}

fn main() {
    // The Rust recurses over data lists and trees: a large stack. What stops outside a comparison is told here, since the hook is silent.
    let run = || catch_unwind(compare).map_err(|_| PANIC.with(|p| p.borrow_mut().take()));
    let t = std::thread::Builder::new().stack_size(1 << 30).spawn(run).unwrap();
    match t.join().unwrap() {
        Ok(agreed) => std::process::exit(!agreed as i32),
        Err(p) => {
            eprintln!("compare: {}", p.map_or(String::new(), |p| p.message));
            std::process::exit(2);
        }
    }
}
