//! Safe calls of the library with the model's types.
//!
//! Every result's memory is filled with rubbish before the call, so that a call
//! that leaves a part unwritten shows (rule 9.2). After the call every lent
//! input is compared with what it was (rule 9.3).

use crate::raw::{
    self, Finishes, Lowest, RowWords, StateWords, TableWords, STATE_WORDS, TABLE_WORDS, TEXT,
};
use model::choices::{Choices, MOST_COUNTED, SCRATCH};
use model::judge::Verdict;
use model::order::Order;
use model::plan::{Counted, Plan};
use model::proposal::{Asked, Committed};
use model::record::{Forward, OneSlot, Record};
use model::report::LONGEST_REPORT;
use model::sentences::{Answer, JudgeAnswer, PlannerAnswer, Read};
use model::speeds::{Least, Sought};
use model::table::{Row, Table, ROWS};

const RUBBISH: u32 = 0xA5A5_A5A5;
const RUBBISH_BYTE: u8 = 0xA5;

/// Bytes of rubbish on either side of lent memory that the library may write:
/// no fewer than a report has, and so than a sheet or a sentence, so that one written in
/// the wrong place stays between them.
const GUARD: usize = LONGEST_REPORT;

/// The reader: number and table.
pub fn read(sheet: &[u8]) -> (u32, Table) {
    let before = sheet.to_vec();
    let mut table: TableWords = [RUBBISH; TABLE_WORDS];
    // SAFETY: the pointers are to memory of the sizes that the library names.
    let number = unsafe { raw::jb_read(sheet.as_ptr(), sheet.len(), &mut table) };
    assert_eq!(sheet, before, "the sheet was written");
    (number, raw::table_of(&table))
}

/// The writer: number and length of the sheet in bytes. The lent bytes are then
/// as the library has left them: all but the sheet's as they were, and with a
/// refusal every one (rules 15.3 and 15.5).
pub fn write(table: &Table, lent: &mut [u8]) -> (u32, u32) {
    let words = raw::table_words(table);
    let answer = write_text(lent, &|sheet, room, length| {
        // SAFETY: as in `read`.
        unsafe { raw::jb_write(&words, sheet, room, length) }
    });
    assert_eq!(words, raw::table_words(table), "the table was written");
    answer
}

/// A number as a field, and whether it holds the number.
pub fn field(number: u32) -> (bool, [u8; 8]) {
    let mut field = [RUBBISH_BYTE; 8];
    // SAFETY: as in `read`.
    let whole = unsafe { raw::jb_field(number, &mut field) };
    assert!(whole <= 1, "jb_field gave {whole}");
    (whole == 1, field)
}

/// The planner.
pub fn plan(table: &Table) -> Plan {
    let lent = Lent::new(table, &[0; ROWS]);
    let mut order: Order = [RUBBISH_BYTE; ROWS];
    let mut left = twice(RUBBISH);
    // SAFETY: as in `read`.
    let number = unsafe { raw::jb_plan(&lent.table, &mut order, &mut left) };
    lent.assert_unwritten(table, &[0; ROWS]);
    Plan {
        number,
        order,
        left,
    }
}

/// The planner at a ceiling, in trials (rule 23.4). It is asked twice, with other rubbish where
/// the answer goes.
pub fn plan_within(table: &Table, ceiling: u32) -> Counted {
    let lent = Lent::new(table, &[0; ROWS]);
    let answer = plan_within_over(RUBBISH, &lent.table, ceiling);
    let again = plan_within_over(!RUBBISH, &lent.table, ceiling);
    assert_eq!(answer, again, "it matters what stood there before");
    lent.assert_unwritten(table, &[0; ROWS]);
    answer
}

fn plan_within_over(rubbish: u32, table: &TableWords, ceiling: u32) -> Counted {
    let mut order: Between<Order> = Between::new([rubbish as u8; ROWS], rubbish);
    let mut left = Between::new(twice(rubbish), rubbish);
    let mut trials = Between::new(rubbish, rubbish);
    // SAFETY: as in `read`.
    let number = unsafe {
        raw::jb_plan_within(
            table,
            ceiling,
            &mut order.lent,
            &mut left.lent,
            &mut trials.lent,
        )
    };
    let plan = Plan {
        number,
        order: order.looked_around(),
        left: left.looked_around(),
    };
    Counted {
        plan,
        trials: trials.looked_around(),
    }
}

/// Asking: the reader and then the planner (rule 22.2). It is asked twice, with other rubbish
/// where the answer goes.
pub fn ask(sheet: &[u8]) -> Asked {
    let before = sheet.to_vec();
    let answer = ask_over(RUBBISH, sheet);
    let again = ask_over(!RUBBISH, sheet);
    assert_eq!(answer, again, "it matters what stood there before");
    assert_eq!(sheet, before, "the sheet was written");
    answer
}

fn ask_over(rubbish: u32, sheet: &[u8]) -> Asked {
    let mut table: Between<TableWords> = Between::new([rubbish; TABLE_WORDS], rubbish);
    let mut order: Between<Order> = Between::new([rubbish as u8; ROWS], rubbish);
    let mut left = Between::new(twice(rubbish), rubbish);
    let (bytes, length) = (sheet.as_ptr(), sheet.len());
    // SAFETY: as in `read`.
    let number = unsafe {
        raw::jb_ask(
            bytes,
            length,
            &mut table.lent,
            &mut order.lent,
            &mut left.lent,
        )
    };
    Asked {
        number,
        table: raw::table_of(&table.looked_around()),
        order: order.looked_around(),
        left: left.looked_around(),
    }
}

/// The least workable speed of a table.
pub fn least(table: &Table, sought: Sought) -> Least {
    let words = raw::table_words(table);
    let call = match sought {
        Sought::Degraded => raw::jb_least_degraded,
        Sought::Normal => raw::jb_least_normal,
    };
    let answer = find_least(&|speed, order| {
        // SAFETY: as in `read`.
        unsafe { call(&words, speed, order) }
    });
    assert_eq!(words, raw::table_words(table), "the table was written");
    answer
}

/// The least workable speed of a sheet, any bytes.
pub fn read_least(sheet: &[u8], sought: Sought) -> Least {
    let before = sheet.to_vec();
    let call = match sought {
        Sought::Degraded => raw::jb_read_least_degraded,
        Sought::Normal => raw::jb_read_least_normal,
    };
    let answer = find_least(&|speed, order| {
        // SAFETY: as in `read`.
        unsafe { call(sheet.as_ptr(), sheet.len(), speed, order) }
    });
    assert_eq!(sheet, before, "the sheet was written");
    answer
}

/// The judge.
pub fn judge(table: &Table, order: &Order) -> Verdict {
    let lent = Lent::new(table, order);
    let (mut yes, mut row, mut slack) = (RUBBISH, RUBBISH, RUBBISH as i32);
    // SAFETY: as in `read`.
    let number = unsafe { raw::jb_judge(&lent.table, &lent.order, &mut yes, &mut row, &mut slack) };
    lent.assert_unwritten(table, order);
    assert!(yes <= 1, "yes is {yes}");
    Verdict {
        number,
        yes: yes == 1,
        row: row_number(row),
        slack: i64::from(slack),
    }
}

/// The judge over a list of rows, any number of them.
pub fn judge_rows(
    normal: u32,
    degraded: u32,
    loading: u32,
    rows: &[Row],
    order: &Order,
) -> Verdict {
    let lent: Vec<RowWords> = rows.iter().map(Row::figures).collect();
    let before = lent.clone();
    let (rows, count) = (lent.as_ptr(), lent.len());
    // SAFETY: as in `read`.
    let packed = unsafe { raw::jb_judge_rows(rows, count, normal, degraded, loading, order) };
    assert_eq!(lent, before, "the rows are only lent");
    let slack = (packed >> 16) as u32 as i32;
    Verdict {
        number: (packed & 15) as u32,
        yes: packed >> 4 & 1 == 1,
        row: row_number((packed >> 5 & 255) as u32),
        slack: i64::from(slack),
    }
}

/// The worst finish of every row, in slots.
pub fn finishes(table: &Table, order: &Order) -> (u32, Finishes) {
    let lent = Lent::new(table, order);
    let mut finishes: Finishes = [RUBBISH; ROWS];
    // SAFETY: as in `read`.
    let number = unsafe { raw::jb_finishes(&lent.table, &lent.order, &mut finishes) };
    lent.assert_unwritten(table, order);
    (number, finishes)
}

/// The report: number and length of its lines in bytes. The lent bytes are then
/// as the library has left them: all but the report's as they were, and with a
/// refusal every one (rules 16.6 and 16.8).
pub fn report(table: &Table, order: &Order, lent: &mut [u8]) -> (u32, u32) {
    let inputs = Lent::new(table, order);
    let answer = write_text(lent, &|report, room, length| {
        // SAFETY: as in `read`.
        unsafe { raw::jb_report(&inputs.table, &inputs.order, report, room, length) }
    });
    inputs.assert_unwritten(table, order);
    answer
}

/// Counting: the number, the count, and in how many correct orders each row stands lowest. The
/// lent numbers are then as the library has left them: all but the entries of the table's words
/// as they were, and with a refusal every one (rules 25.5 and 25.6). It is asked twice, the second
/// time with every bit of them and of the rubbish around them turned over.
pub fn count_choices(table: &Table, scratch: &mut [u32]) -> Choices {
    let words = raw::table_words(table);
    let turned: Vec<u32> = scratch.iter().map(|&entry| !entry).collect();
    let (answer, left) = count_over(RUBBISH, &words, scratch);
    let (again, turned_left) = count_over(!RUBBISH, &words, &turned);
    assert_eq!(answer, again, "it matters what stood there before");
    assert_eq!(words, raw::table_words(table), "the table was written");
    let written = entries_written(answer.number, table.n);
    let (entries, after) = left.split_at(written);
    let (turned_entries, turned_after) = turned_left.split_at(written);
    assert!(entries == turned_entries, "it matters what stood there");
    assert!(
        *after == scratch[written..] && *turned_after == turned[written..],
        "a number that is no word's entry was written"
    );
    scratch.copy_from_slice(&left);
    answer
}

/// How many entries are written: one for each word of n rows, and none with a refusal.
fn entries_written(number: u32, n: u32) -> usize {
    if number != 0 {
        return 0;
    }
    assert!(n <= MOST_COUNTED, "{n} rows are counted");
    1 << n
}

fn count_over(rubbish: u32, table: &TableWords, scratch: &[u32]) -> (Choices, Vec<u32>) {
    let guard = [rubbish; SCRATCH];
    let mut memory = [&guard, scratch, &guard].concat();
    let mut count = Between::new(rubbish, rubbish);
    let mut lowest: Between<Lowest> = Between::new([rubbish; ROWS], rubbish);
    let (lent, numbers) = (memory[SCRATCH..].as_mut_ptr(), scratch.len());
    // SAFETY: as in `read`.
    let number = unsafe { raw::jb_count(table, lent, numbers, &mut count.lent, &mut lowest.lent) };
    let (below, rest) = memory.split_at(SCRATCH);
    let (left, above) = rest.split_at(numbers);
    assert!(*below == guard, "a number before the lent ones was written");
    assert!(*above == guard, "a number behind the lent ones was written");
    let answer = Choices {
        number,
        count: count.looked_around(),
        lowest: lowest.looked_around(),
    };
    (answer, left.to_vec())
}

/// The fresh record.
pub fn fresh(table: &Table, order: &Order) -> (u32, Record) {
    let lent = Lent::new(table, order);
    let mut run_table: TableWords = [RUBBISH; TABLE_WORDS];
    let mut run_order: Order = [RUBBISH_BYTE; ROWS];
    let mut run_state: StateWords = [RUBBISH; STATE_WORDS];
    // SAFETY: as in `read`.
    let number = unsafe {
        raw::jb_fresh(
            &lent.table,
            &lent.order,
            &mut run_table,
            &mut run_order,
            &mut run_state,
        )
    };
    lent.assert_unwritten(table, order);
    (number, raw::record_of(&run_table, &run_order, &run_state))
}

/// The number and the row of the coming slot, before its supply is known.
pub fn coming(record: &Record) -> (u32, u8) {
    let lent = Lent::new(&record.table, &record.order);
    let state = raw::state_words(record);
    let mut row = RUBBISH;
    // SAFETY: as in `read`.
    let number = unsafe { raw::jb_coming(&lent.table, &lent.order, &state, &mut row) };
    let after = raw::record_of(&lent.table, &lent.order, &state);
    assert_eq!(after, *record, "the record was written");
    (number, row_number(row))
}

/// One slot with this supply, in work units per slot.
pub fn one_slot(record: &Record, supply: u32) -> OneSlot {
    let lent = Lent::new(&record.table, &record.order);
    let mut state = raw::state_words(record);
    let mut row = RUBBISH;
    // SAFETY: as in `read`.
    let number = unsafe { raw::jb_slot(&lent.table, &lent.order, &mut state, supply, &mut row) };
    OneSlot {
        number,
        row: row_number(row),
        record: raw::record_of(&lent.table, &lent.order, &state),
    }
}

/// Forward over these supplies, in work units per slot.
pub fn forward(record: &Record, supplies: &[u32]) -> Forward {
    let lent = Lent::new(&record.table, &record.order);
    let mut state = raw::state_words(record);
    let before = supplies.to_vec();
    let mut worked = RUBBISH;
    // SAFETY: as in `read`.
    let number = unsafe {
        raw::jb_forward(
            &lent.table,
            &lent.order,
            &mut state,
            supplies.as_ptr(),
            supplies.len(),
            &mut worked,
        )
    };
    assert!(supplies == before, "the supplies were written");
    Forward {
        number,
        worked,
        record: raw::record_of(&lent.table, &lent.order, &state),
    }
}

/// A commit of this table and this order, on a record that the library may write.
pub fn commit(record: &Record, table: &Table, order: &Order) -> Committed {
    let lent = Lent::new(table, order);
    let mut run_table = Between::new(raw::table_words(&record.table), RUBBISH);
    let mut run_order = Between::new(record.order, RUBBISH);
    let mut run_state = Between::new(raw::state_words(record), RUBBISH);
    // SAFETY: as in `read`.
    let number = unsafe {
        raw::jb_commit(
            &lent.table,
            &lent.order,
            &mut run_table.lent,
            &mut run_order.lent,
            &mut run_state.lent,
        )
    };
    lent.assert_unwritten(table, order);
    Committed {
        number,
        record: raw::record_of(
            &run_table.looked_around(),
            &run_order.looked_around(),
            &run_state.looked_around(),
        ),
    }
}

/// What the planning program writes for this input.
pub fn program(input: &[u8]) -> Vec<u8> {
    let before = input.to_vec();
    let mut text = [RUBBISH_BYTE; TEXT];
    // SAFETY: as in `read`.
    let length = unsafe { raw::jb_program(input.as_ptr(), input.len(), &mut text) };
    assert_eq!(input, before, "the input was written");
    let (written, after) = text.split_at(length as usize);
    assert!(after.iter().all(|&byte| byte == 0), "zeros follow the text");
    written.to_vec()
}

/// The composer: number and length of the answer's sentence in bytes. The lent bytes are then as
/// the library has left them: all but the sentence's as they were, and with 10 every one (rule
/// 24.9).
pub fn compose(answer: &Answer, lent: &mut [u8]) -> (u32, u32) {
    match answer {
        Answer::Planner(answer) => compose_plan(answer, lent),
        Answer::Judge(answer) => write_text(lent, &|line, room, length| {
            let JudgeAnswer {
                number,
                yes,
                row,
                slack,
            } = *answer;
            // SAFETY: as in `read`.
            unsafe { raw::jb_judge_sentence(number, yes, row, slack, line, room, length) }
        }),
    }
}

fn compose_plan(answer: &PlannerAnswer, lent: &mut [u8]) -> (u32, u32) {
    let PlannerAnswer {
        number,
        left,
        order,
        trials,
    } = *answer;
    let written = write_text(lent, &|line, room, length| {
        // SAFETY: as in `read`.
        unsafe { raw::jb_plan_sentence(number, left, &order, trials, line, room, length) }
    });
    assert_eq!(order, answer.order, "the order was written");
    written
}

/// The reader of sentences: number, kind and answer (rule 24.11). It is asked twice, with other
/// rubbish where the answer goes.
pub fn read_sentence(line: &[u8]) -> Read {
    let before = line.to_vec();
    let answer = read_sentence_over(RUBBISH, line);
    let again = read_sentence_over(!RUBBISH, line);
    assert_eq!(answer, again, "it matters what stood there before");
    assert_eq!(line, before, "the line was written");
    answer
}

/// Every field is kept, also one that is not of the kind told; the answer's number is the
/// judge's if that is the kind, else the planner's.
fn read_sentence_over(rubbish: u32, line: &[u8]) -> Read {
    let mut words = [(); 5].map(|()| Between::new(rubbish, rubbish));
    let mut left = Between::new(twice(rubbish), rubbish);
    let mut order: Between<Order> = Between::new([rubbish as u8; ROWS], rubbish);
    let mut slack = Between::new(rubbish as i32, rubbish);
    let [kind, number, trials, yes, row] = &mut words;
    // SAFETY: as in `read`.
    let answered = unsafe {
        raw::jb_read_sentence(
            line.as_ptr(),
            line.len(),
            &mut kind.lent,
            &mut number.lent,
            &mut left.lent,
            &mut order.lent,
            &mut trials.lent,
            &mut yes.lent,
            &mut row.lent,
            &mut slack.lent,
        )
    };
    let [kind, number, trials, yes, row] = words.map(|word| word.looked_around());
    let (of_planner, of_judge) = if kind == 2 { (0, number) } else { (number, 0) };
    Read {
        number: answered,
        kind,
        planner: PlannerAnswer {
            number: of_planner,
            left: left.looked_around(),
            order: order.looked_around(),
            trials,
        },
        judge: JudgeAnswer {
            number: of_judge,
            yes,
            row,
            slack: slack.looked_around(),
        },
    }
}

/// A table and an order as they are lent to the library.
struct Lent {
    table: TableWords,
    order: Order,
}

impl Lent {
    fn new(table: &Table, order: &Order) -> Lent {
        Lent {
            table: raw::table_words(table),
            order: *order,
        }
    }

    fn assert_unwritten(&self, table: &Table, order: &Order) {
        assert_eq!(self.table, raw::table_words(table), "the table was written");
        assert_eq!(self.order, *order, "the order was written");
    }
}

/// A call that writes a text into lent bytes: it takes where they start, how many
/// they are and where the text's length goes, and gives its number.
type WriteText<'a> = &'a dyn Fn(*mut u8, usize, &mut u32) -> u32;

/// What such a call answers, and the text that it wrote: none with a refusal.
#[derive(Debug, PartialEq, Eq)]
struct Written {
    number: u32,
    length: u32,
    text: Vec<u8>,
}

/// Makes such a call on these bytes and gives its number and the length. It is
/// made again with every bit of them and of the rubbish around them turned over,
/// so that no byte that is written can pass for one that was left, and what
/// stood there before cannot matter unseen.
fn write_text(lent: &mut [u8], call: WriteText) -> (u32, u32) {
    let turned: Vec<u8> = lent.iter().map(|&byte| !byte).collect();
    let written = write_between_guards(lent, RUBBISH, call);
    let again = write_between_guards(&turned, !RUBBISH, call);
    assert_eq!(written, again, "it matters what stood there before");
    lent[..written.text.len()].copy_from_slice(&written.text);
    (written.number, written.length)
}

/// Makes the call over these bytes with rubbish around them and in the length.
/// All bytes but the text's have to be left as they were.
fn write_between_guards(before: &[u8], rubbish: u32, call: WriteText) -> Written {
    let mut memory = Guarded::around(before, rubbish as u8);
    let mut length = rubbish;
    let number = call(memory.start(), before.len(), &mut length);
    let left = memory.between_guards();
    let written = if number == 0 { length as usize } else { 0 };
    let room = before.len();
    assert!(written <= room, "{written} of {room} bytes");
    let (text, after) = left.split_at(written);
    assert!(
        *after == before[written..],
        "a byte that is none of the text's was written"
    );
    Written {
        number,
        length,
        text: text.to_vec(),
    }
}

/// Lent bytes that the library may write, with rubbish on either side.
struct Guarded {
    memory: Vec<u8>,
    rubbish: u8,
}

impl Guarded {
    fn around(lent: &[u8], rubbish: u8) -> Guarded {
        let guard = [rubbish; GUARD];
        let memory = [&guard, lent, &guard].concat();
        Guarded { memory, rubbish }
    }

    /// Where the lent bytes start.
    fn start(&mut self) -> *mut u8 {
        self.memory[GUARD..].as_mut_ptr()
    }

    /// The lent bytes, after a look at the guards.
    fn between_guards(&self) -> &[u8] {
        let (below, rest) = self.memory.split_at(GUARD);
        let (lent, above) = rest.split_at(rest.len() - GUARD);
        let is_whole = |guard: &[u8]| guard.iter().all(|&byte| byte == self.rubbish);
        assert!(is_whole(below), "a byte before the lent ones was written");
        assert!(is_whole(above), "a byte behind the lent ones was written");
        lent
    }
}

/// A call that writes a speed and an order, and gives its number.
type FindLeast<'a> = &'a dyn Fn(*mut u32, *mut Order) -> u32;

/// Makes such a call twice, with rubbish in and around its results and with every
/// bit of it turned over, so that what is left unwritten shows.
fn find_least(call: FindLeast) -> Least {
    let answer = find_between_guards(RUBBISH, call);
    let again = find_between_guards(!RUBBISH, call);
    assert_eq!(answer, again, "it matters what stood there before");
    answer
}

fn find_between_guards(rubbish: u32, call: FindLeast) -> Least {
    let mut speed = Between::new(rubbish, rubbish);
    let mut order: Between<Order> = Between::new([rubbish as u8; ROWS], rubbish);
    let number = call(&mut speed.lent, &mut order.lent);
    Least {
        number,
        speed: speed.looked_around(),
        order: order.looked_around(),
    }
}

/// Lent memory of a fixed size that the library may write, with words of rubbish on either
/// side.
#[repr(C)]
struct Between<Words> {
    before: [u32; 64],
    lent: Words,
    behind: [u32; 64],
    rubbish: u32,
}

impl<Words: Copy> Between<Words> {
    fn new(lent: Words, rubbish: u32) -> Between<Words> {
        let guard = [rubbish; 64];
        Between {
            before: guard,
            lent,
            behind: guard,
            rubbish,
        }
    }

    /// What the library has left there, after a look at the guards.
    fn looked_around(&self) -> Words {
        let guard = [self.rubbish; 64];
        assert_eq!(
            self.before, guard,
            "a word before the lent ones was written"
        );
        assert_eq!(
            self.behind, guard,
            "a word behind the lent ones was written"
        );
        self.lent
    }
}

/// This rubbish in both halves of a word of rows left.
fn twice(rubbish: u32) -> u64 {
    u64::from(rubbish) << 32 | u64::from(rubbish)
}

/// A row number as the model has it; the library never gives one above 64.
fn row_number(row: u32) -> u8 {
    assert!(row <= ROWS as u32, "row {row}");
    row as u8
}
