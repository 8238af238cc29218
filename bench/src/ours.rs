//! The proved code, as the static library has it, and one function from inside the module of `door_sets`.

extern "C" {
    fn bridlesnow_is_utf8(text: *const u8, len: usize) -> bool;
    fn bridlesnow_read_attrs_at(
        text: *const u8, len: usize, place: usize, loose: u8,
        out: *mut u8, out_len: usize, told: *mut usize, told_len: usize,
    ) -> u8;
    fn bridlesnow_parse_standalone_attrs(
        text: *const u8, len: usize, line: usize,
        out: *mut u8, out_len: usize, told: *mut usize, told_len: usize,
    ) -> u8;
    fn bridlesnow_parse_standalone_attrs_block(
        text: *const u8, len: usize, line: usize, join: *mut u8, join_len: usize,
        out: *mut u8, out_len: usize, told: *mut usize, told_len: usize,
    ) -> u8;
    fn bridlesnow_merge_lines(
        text: *const u8, len: usize, common: usize, variant: usize,
        out: *mut u8, out_len: usize, told: *mut usize, told_len: usize,
    ) -> u8;
    fn bridlesnow_report_start(
        text: *const u8, len: usize, join: *mut u8, join_len: usize,
        out: *mut u8, out_len: usize, told: *mut usize, told_len: usize,
    ) -> u8;
    fn bridlesnow_report_part(
        text: *const u8, len: usize, at: usize, line: usize, join: *mut u8, join_len: usize,
        out: *mut u8, out_len: usize, told: *mut usize, told_len: usize,
    ) -> u8;
    fn bridlesnow_variants(
        text: *const u8, len: usize, join: *mut u8, join_len: usize,
        cells: *mut u16, cells_len: usize, told: *mut usize, told_len: usize,
    ) -> u8;
    fn bridlesnow_totals_feed(totals: *mut u64, totals_len: usize, text: *const u8, len: usize, join: *mut u8, join_len: usize) -> u8;
    fn bridlesnow_index_build(
        text: *const u8, len: usize, join: *mut u8, join_len: usize,
        table: *mut usize, table_len: usize, out: *mut u8, out_len: usize, told: *mut usize, told_len: usize,
    ) -> u8;
    fn bridlesnow_index_find(index: *const u8, len: usize, id: *const u8, id_len: usize, told: *mut usize, told_len: usize) -> u8;
    fn bridlesnow_index_find_row(
        index: *const u8, len: usize, table: *const usize, table_len: usize, n: usize,
        id: *const u8, id_len: usize, told: *mut usize, told_len: usize,
    ) -> u8;
    fn bridlesnow_index_mend(
        old: *const u8, old_len: usize, new: *const u8, new_len: usize, a: usize, b: usize,
        index: *const u8, index_len: usize, join: *mut u8, join_len: usize,
        table: *mut usize, table_len: usize, out: *mut u8, out_len: usize, told: *mut usize, told_len: usize,
    ) -> u8;
    /// `read_brace::read_attrs_at_with`, which `bench/run` makes visible: it answers by a struct that the caller has room for, and takes the mode as a
    /// number.
    fn read_brace__read_attrs_at_with(answer: *mut u8, text: *const u8, len: usize, place: usize, mode: u8);
    /// The second reader, likewise; its choice of tags as a number.
    fn read_once__read_attrs_once_with(answer: *mut u8, text: *const u8, len: usize, place: usize, mode: u8, tags: u8);
}

/// The set of a block at a brace as the reader hands it out: the answer's number stands first, 2 where a set was read.
#[repr(C, align(16))]
pub struct Set([u8; 2048]);

impl Set {
    pub fn new() -> Self {
        Set([0; 2048])
    }
    pub fn was_read(&self) -> bool {
        self.0[0] == 2
    }
}

/// Memory that the calls are lent.
pub struct Lent {
    pub join: Vec<u8>,
    pub out: Vec<u8>,
    pub report: Vec<u8>,
    pub told: [usize; 5],
    pub cells: [u16; 120],
    pub totals: [u64; 13],
    pub table: Vec<usize>,
    pub index: Vec<u8>,
}

impl Lent {
    pub fn new() -> Self {
        Lent {
            join: vec![0; 65_535],
            out: vec![0; 1 << 18],
            report: Vec::with_capacity(1 << 20),
            told: [0; 5],
            cells: [0; 120],
            totals: [0; 13],
            table: vec![0; 5 * 16_384],
            index: vec![0; 376_850],
        }
    }
}

pub fn is_utf8(text: &[u8]) -> bool {
    unsafe { bridlesnow_is_utf8(text.as_ptr(), text.len()) }
}

/// The strict reading at a brace, its set left in memory.
pub fn read_set(text: &[u8], place: usize, set: &mut Set) {
    unsafe { read_brace__read_attrs_at_with(set.0.as_mut_ptr(), text.as_ptr(), text.len(), place, 0) }
}

/// The same by the second reader, any tag taken.
pub fn read_set_once(text: &[u8], place: usize, set: &mut Set) {
    unsafe { read_once__read_attrs_once_with(set.0.as_mut_ptr(), text.as_ptr(), text.len(), place, 0, 0) }
}

/// The strict reading at a brace, its canonical text left in `out`: its length.
pub fn read_attrs_at(text: &[u8], place: usize, m: &mut Lent) -> (u8, usize) {
    let told = m.told.as_mut_ptr();
    let number = unsafe { bridlesnow_read_attrs_at(text.as_ptr(), text.len(), place, 0, m.out.as_mut_ptr(), m.out.len(), told, 2) };
    (number, m.told[1])
}

pub fn parse_standalone_attrs(text: &[u8], line: usize, m: &mut Lent) -> (u8, usize) {
    let told = m.told.as_mut_ptr();
    let number = unsafe { bridlesnow_parse_standalone_attrs(text.as_ptr(), text.len(), line, m.out.as_mut_ptr(), m.out.len(), told, 1) };
    (number, m.told[0])
}

pub fn parse_block(text: &[u8], line: usize, m: &mut Lent) -> (u8, usize) {
    let told = m.told.as_mut_ptr();
    let number = unsafe {
        bridlesnow_parse_standalone_attrs_block(
            text.as_ptr(), text.len(), line, m.join.as_mut_ptr(), m.join.len(), m.out.as_mut_ptr(), m.out.len(), told, 5,
        )
    };
    (number, m.told[4])
}

pub fn merge_lines(text: &[u8], common: usize, variant: usize, m: &mut Lent) -> (u8, usize) {
    let told = m.told.as_mut_ptr();
    let number = unsafe { bridlesnow_merge_lines(text.as_ptr(), text.len(), common, variant, m.out.as_mut_ptr(), m.out.len(), told, 2) };
    (number, m.told[1])
}

/// The whole job: the report on a sheet, laid into `report` part by part.
pub fn sheet(text: &[u8], m: &mut Lent) {
    m.report.clear();
    let told = m.told.as_mut_ptr();
    let mut number = unsafe {
        bridlesnow_report_start(text.as_ptr(), text.len(), m.join.as_mut_ptr(), m.join.len(), m.out.as_mut_ptr(), m.out.len(), told, 3)
    };
    loop {
        assert_eq!(number, 0);
        let [len, at, line, ..] = m.told;
        m.report.extend_from_slice(&m.out[..len]);
        if line == 0 {
            return;
        }
        let told = m.told.as_mut_ptr();
        number = unsafe {
            bridlesnow_report_part(
                text.as_ptr(), text.len(), at, line, m.join.as_mut_ptr(), m.join.len(), m.out.as_mut_ptr(), m.out.len(), told, 3,
            )
        };
    }
}

/// The dealers' table of a sheet, and its number.
pub fn variants(text: &[u8], m: &mut Lent) -> u8 {
    let told = m.told.as_mut_ptr();
    unsafe {
        bridlesnow_variants(text.as_ptr(), text.len(), m.join.as_mut_ptr(), m.join.len(), m.cells.as_mut_ptr(), m.cells.len(), told, 3)
    }
}

/// A report over one sheet, and its number.
pub fn totals(text: &[u8], m: &mut Lent) -> u8 {
    m.totals = [0; 13];
    unsafe { bridlesnow_totals_feed(m.totals.as_mut_ptr(), m.totals.len(), text.as_ptr(), text.len(), m.join.as_mut_ptr(), m.join.len()) }
}

/// The index of a sheet, laid into `index` and `table`: its number, how many records it has, and how many bytes.
pub fn index(text: &[u8], m: &mut Lent) -> (u8, usize, usize) {
    let told = m.told.as_mut_ptr();
    let number = unsafe {
        bridlesnow_index_build(
            text.as_ptr(), text.len(), m.join.as_mut_ptr(), m.join.len(),
            m.table.as_mut_ptr(), m.table.len(), m.index.as_mut_ptr(), m.index.len(), told, 2,
        )
    };
    (number, m.told[0], m.told[1])
}

/// Whether an id is found in the first `len` bytes of `index`.
pub fn find(len: usize, id: &[u8], m: &mut Lent) -> (u8, usize) {
    let told = m.told.as_mut_ptr();
    let number = unsafe { bridlesnow_index_find(m.index.as_ptr(), len, id.as_ptr(), id.len(), told, 4) };
    (number, m.told[0])
}

/// The same over the first `n` rows of `table`.
pub fn find_row(len: usize, n: usize, id: &[u8], m: &mut Lent) -> (u8, usize) {
    let told = m.told.as_mut_ptr();
    let number = unsafe {
        bridlesnow_index_find_row(m.index.as_ptr(), len, m.table.as_ptr(), m.table.len(), n, id.as_ptr(), id.len(), told, 4)
    };
    (number, m.told[0])
}

/// The index of a text in which one line of another was replaced, laid into `index` and `table`: its number, and how many bytes it has.
pub fn mend(old: &[u8], new: &[u8], line: usize, index: &[u8], m: &mut Lent) -> (u8, usize) {
    let told = m.told.as_mut_ptr();
    let number = unsafe {
        bridlesnow_index_mend(
            old.as_ptr(), old.len(), new.as_ptr(), new.len(), line, line, index.as_ptr(), index.len(), m.join.as_mut_ptr(), m.join.len(),
            m.table.as_mut_ptr(), m.table.len(), m.index.as_mut_ptr(), m.index.len(), told, 2,
        )
    };
    (number, m.told[1])
}
