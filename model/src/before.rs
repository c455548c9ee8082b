//! Answers from before tables had a loading time, from before rows had a promise, and
//! from before rows followed rows. A table keeps each answer of such a time if the figure
//! that came then, and each that has come later, is 0 in it wherever it stands; its sheet
//! is longer by their fields (rules 1.10, 20.2 and 21.5).
//!
//! Tables, orders, sheets and records come from a fixed seed. All that a call
//! answered to them is taken into one number for that call; `Before::stored` has the
//! numbers that the calls of the model gave at the time.
//!
//! Since the first of these times one slot and forward have come to drop LO rows at
//! their deadlines. They answer as before where there is nothing to drop (rule 19.7),
//! and that is where they are compared: on records of tables without a LO row, and on
//! records in which no LO row's deadline is reached by any slot that is worked. Those
//! tables are made of the others, whose answers from all other calls are compared as
//! they are.

use crate::cases::row;
use crate::judge::Verdict;
use crate::order::{order_of, Order};
use crate::plan::Plan;
use crate::random::{loading, promise, Random};
use crate::record::{Forward, OneSlot, Record};
use crate::report::LONGEST_REPORT;
use crate::sheet::{
    sheet_of, FIELD, FIRST_FIELDS, FIRST_LINE, LONGEST_SHEET, ROW_FIELDS, ROW_LINE,
};
use crate::speeds::{Least, Sought};
use crate::table::{Row, Table, HI, LO};

/// The time whose answers are compared: before tables or rows had these, and all that came
/// after them.
#[derive(Clone, Copy, Debug, PartialEq, Eq, PartialOrd, Ord)]
pub enum Before {
    /// No speed was sought then either.
    Loading,
    Promises,
    Waits,
}

/// All of these times, the earliest first.
pub const TIMES: [Before; 3] = [Before::Loading, Before::Promises, Before::Waits];

/// The calls whose answers are compared, of the model or of the library.
pub struct Calls {
    pub read: fn(&[u8]) -> (u32, Table),
    pub write: fn(&Table, &mut [u8]) -> (u32, u32),
    pub plan: fn(&Table) -> Plan,
    pub judge: fn(&Table, &Order) -> Verdict,
    pub report: fn(&Table, &Order, &mut [u8]) -> (u32, u32),
    pub one_slot: fn(&Record, u32) -> OneSlot,
    pub forward: fn(&Record, &[u32]) -> Forward,
    pub program: fn(&[u8]) -> Vec<u8>,
    pub least: fn(&Table, Sought) -> Least,
}

/// The answers of each call, taken into one number; 0 for a call that there was not.
#[derive(Clone, Copy, Debug, PartialEq, Eq)]
pub struct Answers {
    pub read: u64,
    pub write: u64,
    pub plan: u64,
    pub judge: u64,
    pub report: u64,
    pub one_slot: u64,
    pub forward: u64,
    pub program: u64,
    pub least: u64,
}

impl Before {
    /// The answers as they were stored.
    pub fn stored(self) -> Answers {
        match self {
            Before::Loading => Answers {
                read: 0x1DA5_6EFF_ED19_7A8B,
                write: 0x2413_DCC4_6DBF_10E6,
                plan: 0x4463_094A_56DF_1B05,
                judge: 0x9C60_6B13_CCDF_9463,
                report: 0xE990_3A89_59B2_0559,
                one_slot: 0x1618_09BC_E563_F462,
                forward: 0x5389_CBC1_D179_AB78,
                program: 0xF9B9_2A91_65BF_0E0F,
                least: 0,
            },
            Before::Promises => Answers {
                read: 0xCCAD_03BD_4697_F1DA,
                write: 0x24AD_9FCD_D1FB_8BF3,
                plan: 0xC253_960A_9F9C_EC68,
                judge: 0xC1C6_8EC6_3277_5BB8,
                report: 0x36D6_3ECA_F6BA_7E46,
                one_slot: 0x84FD_B460_4A86_8AD8,
                forward: 0x16FE_4159_B023_2567,
                program: 0x52CD_B5E6_98BD_27A1,
                least: 0xC974_2A9B_826A_CE5D,
            },
            Before::Waits => Answers {
                read: 0x5846_D2A9_00DB_C1B7,
                write: 0x6EF2_080B_EF2C_77C3,
                plan: 0x92FE_5831_2A3C_FE4B,
                judge: 0x228D_0533_B576_22B9,
                report: 0x5786_DED1_575C_B3F4,
                one_slot: 0x4168_4FB9_6FB4_9F22,
                forward: 0x4814_151A_A47E_1EDC,
                program: 0xAA1A_D772_DC75_AA17,
                least: 0xFF5E_0321_43A5_FAA6,
            },
        }
    }

    /// Tables had a loading time.
    fn has_loading(self) -> bool {
        self > Before::Loading
    }

    /// Rows had a promise.
    fn has_promises(self) -> bool {
        self > Before::Promises
    }

    /// How many fields the first line of a sheet had.
    fn first_fields(self) -> usize {
        FIRST_FIELDS - usize::from(!self.has_loading())
    }

    /// How many fields the line of a row had; that of w came after all of these times.
    fn row_fields(self) -> usize {
        ROW_FIELDS - 1 - usize::from(!self.has_promises())
    }

    /// The table as it could be then: with 0 for every figure that has come since.
    pub fn old_table(self, table: &Table) -> Table {
        match self {
            Before::Loading => table.without_waits().without_promises().with_loading(0),
            Before::Promises => table.without_waits().without_promises(),
            Before::Waits => table.without_waits(),
        }
    }

    /// A sheet as it was: without the fields that were added since.
    pub fn old_sheet(self, sheet: &[u8]) -> Vec<u8> {
        let (first, rows) = sheet.split_at(FIRST_LINE);
        let lines = rows.chunks(ROW_LINE);
        let old_lines = lines.flat_map(|line| cut(line, self.row_fields()));
        let old_first = cut(first, self.first_fields());
        old_first.into_iter().chain(old_lines).collect()
    }

    /// Such a sheet, damaged or not, with these fields put in, each of 0: before the end
    /// of the first line, and before that of each row's. Bytes that are no whole line of a
    /// row, or that do not get to the end of the first line, stay as they are.
    pub fn new_sheet(self, old: &[u8]) -> Vec<u8> {
        let Some((first, rest)) = old.split_at_checked(FIELD * self.first_fields()) else {
            return old.to_vec();
        };
        let (end, rows) = rest.split_at(rest.len().min(1));
        let in_rows = zeros(ROW_FIELDS - self.row_fields());
        let old_line = FIELD * self.row_fields() + 1;
        let new_line = |line: &[u8]| match line.split_last() {
            Some((end, fields)) if line.len() == old_line => [fields, &in_rows, &[*end]].concat(),
            _ => line.to_vec(),
        };
        let lines: Vec<u8> = rows.chunks(old_line).flat_map(new_line).collect();
        let in_first = zeros(FIRST_FIELDS - self.first_fields());
        [first, &in_first, end, &lines].concat()
    }
}

/// The line with its first fields alone, so many of them, and its end.
fn cut(line: &[u8], fields: usize) -> Vec<u8> {
    [&line[..FIELD * fields], &line[line.len() - 1..]].concat()
}

/// So many fields of 0.
fn zeros(fields: usize) -> Vec<u8> {
    b"       0".repeat(fields)
}

/// How many times every call is made.
const ROUNDS: u32 = 5_000;

/// Of so many tables one has its least N sought, which takes many plannings.
const NORMAL_SOUGHT: u32 = 100;

/// What these calls answer to the inputs of this time.
pub fn answers(calls: &Calls, before: Before) -> Answers {
    let mut random = Random::seeded(901);
    let [mut read, mut write, mut plan, mut judge] = [Digest { before, state: 0 }; 4];
    let [mut report, mut one_slot, mut forward, mut program] = [read; 4];
    let mut least = read;
    for round in 0..ROUNDS {
        let table = table(&mut random, before);
        let old = damaged_old_sheet(&mut random, &table, before);
        let sheet = before.new_sheet(&old);
        read.read(&(calls.read)(&sheet));
        program.bytes(&(calls.program)(&sheet));
        let table = perhaps_spoiled(&mut random, table, before);
        let order = order(&mut random, &table);
        write.sheet(&table, calls.write);
        plan.plan(&(calls.plan)(&table));
        judge.verdict(&(calls.judge)(&table, &order));
        report.report(&table, &order, calls.report);
        if before.has_loading() {
            least.least(&(calls.least)(&table, Sought::Degraded));
            if round % NORMAL_SOUGHT == 0 {
                least.least(&(calls.least)(&table, Sought::Normal));
            }
        }
        let supplies = supplies(&mut random);
        let table = match (before, round % 2) {
            (Before::Loading, 0) => without_previews(&table),
            (Before::Loading, _) => with_time_for_previews(&table),
            _ => table,
        };
        let (number, fresh) = Record::fresh(&table, &order);
        forward.word(number);
        let worked = (calls.forward)(&fresh, &supplies);
        forward.forward(&worked);
        let mut record = perhaps_changed(&mut random, worked.record);
        if before == Before::Loading && round % 2 == 1 {
            record.clock = record.clock.min(BEFORE_PREVIEWS_END);
        }
        one_slot.one_slot(&(calls.one_slot)(&record, supplies[0]));
        forward.forward(&(calls.forward)(&record, &supplies));
    }
    Answers {
        read: read.state,
        write: write.state,
        plan: plan.state,
        judge: judge.state,
        report: report.state,
        one_slot: one_slot.state,
        forward: forward.state,
        program: program.state,
        least: least.state,
    }
}

/// The table with HI rows in the place of LO rows.
fn without_previews(table: &Table) -> Table {
    let mut changed = *table;
    for level in &mut changed.level[..table.n.min(6) as usize] {
        *level = (*level).max(HI);
    }
    changed
}

/// The table with later deadlines, by so many slots, for its LO rows.
fn with_time_for_previews(table: &Table) -> Table {
    let mut changed = *table;
    for index in 0..table.n.min(6) as usize {
        if table.level[index] == LO {
            let later = table.deadline[index].saturating_add(TIME_FOR_PREVIEWS);
            changed.deadline[index] = later;
        }
    }
    changed
}

/// Slots that `with_time_for_previews` adds.
const TIME_FOR_PREVIEWS: u32 = 900_000;

/// A clock, in slots, from which no list of supplies comes near such a deadline.
const BEFORE_PREVIEWS_END: u32 = 800_000;

/// A table of up to six rows on which the planner's answers 0 and 7 are common. Its
/// rows have time for up to six of them to load.
fn table(random: &mut Random, before: Before) -> Table {
    let loading = if before.has_loading() {
        loading(random)
    } else {
        0
    };
    let n = random.between(1, 6);
    let normal = random.between(1, 4);
    let degraded = random.between(1, normal);
    let one_row = |random: &mut Random| {
        let release = random.between(0, 8);
        let work = random.between(1, 3 * normal);
        let deadline = release + random.between(1, 14);
        let level = random.between(0, 1);
        let loads = match loading {
            0 => 0,
            _ => loading * random.between(1, 6),
        };
        let promised = if before.has_promises() {
            promise(random, work, level)
        } else {
            0
        };
        row([release, work, deadline + loads, level, promised])
    };
    let rows: Vec<Row> = (0..n).map(|_| one_row(random)).collect();
    Table::of(normal, degraded, loading, &rows)
}

/// The table, or once in four times with a figure that may be refused.
fn perhaps_spoiled(random: &mut Random, mut table: Table, before: Before) -> Table {
    let columns = 6 + u32::from(before.has_loading()) + u32::from(before.has_promises());
    if random.once_in(4) {
        let figure = random.one_of(&[0, 1, 2, 65, 1_001, 1_000_001, u32::MAX]);
        let index = random.between(0, table.n) as usize;
        *match random.between(0, columns) {
            0 => &mut table.n,
            1 => &mut table.normal,
            2 => &mut table.degraded,
            3 => &mut table.release[index],
            4 => &mut table.work[index],
            5 => &mut table.deadline[index],
            6 => &mut table.level[index],
            7 => &mut table.loading,
            _ => &mut table.promised[index],
        } = figure;
    }
    table
}

/// An order of a table of up to six rows, or once in six times some other numbers.
fn order(random: &mut Random, table: &Table) -> Order {
    let rows: Vec<u8> = (1..=table.n.min(6) as u8).collect();
    let mut order = order_of(&random.shuffled(&rows));
    if random.once_in(6) {
        order[random.between(0, 7) as usize] = random.between(0, 7) as u8;
    }
    order
}

/// The sheet of a table as it was, twice in three times with a byte changed, or with a
/// byte more or some fewer.
fn damaged_old_sheet(random: &mut Random, table: &Table, before: Before) -> Vec<u8> {
    let mut sheet = before.old_sheet(&sheet_of(table));
    let place = random.between(0, sheet.len() as u32 - 1) as usize;
    match random.between(0, 5) {
        0 => sheet.truncate(place),
        1 => sheet.push(random.one_of(b"\n 0")),
        2 => sheet[place] = random.one_of(b"\n 0129x"),
        3 => sheet[place % (FIELD * before.first_fields())] = random.one_of(b" 0123456"),
        _ => {}
    }
    sheet
}

/// One to thirty supplies, in work units per slot.
fn supplies(random: &mut Random) -> Vec<u32> {
    let count = random.between(1, 30);
    let supply = |random: &mut Random| match random.between(0, 9) {
        0 => u32::MAX,
        _ => random.between(0, 5),
    };
    (0..count).map(|_| supply(random)).collect()
}

/// The record, or once in two times with a figure that may make it unsound or
/// bring it to the last clock.
fn perhaps_changed(random: &mut Random, mut record: Record) -> Record {
    if random.once_in(2) {
        let index = random.between(0, 6) as usize;
        let figure = random.between(0, 20);
        match random.between(0, 4) {
            0 => record.got[index] = figure,
            1 => record.used[index] = figure,
            2 => record.closing[index] = figure,
            3 => record.clock = figure,
            _ => record.clock = random.between(1_999_990, 2_000_001),
        }
    }
    record
}

/// Figures taken into one number, one after another: those that there were at this
/// time.
#[derive(Clone, Copy)]
struct Digest {
    before: Before,
    state: u64,
}

impl Digest {
    fn number(&mut self, number: u64) {
        self.state = Random::seeded(self.state ^ number).word();
    }

    fn word(&mut self, word: u32) {
        self.number(u64::from(word));
    }

    fn words(&mut self, words: &[u32]) {
        for &word in words {
            self.word(word);
        }
    }

    fn bytes(&mut self, bytes: &[u8]) {
        self.number(bytes.len() as u64);
        for &byte in bytes {
            self.number(u64::from(byte));
        }
    }

    fn table(&mut self, table: &Table) {
        let old = self.before.old_table(table);
        assert_eq!(old, *table, "a figure came from nowhere");
        self.words(&[table.n, table.normal, table.degraded]);
        if self.before.has_loading() {
            self.word(table.loading);
        }
        for column in [&table.release, &table.work, &table.deadline, &table.level] {
            self.words(column);
        }
        if self.before.has_promises() {
            self.words(&table.promised);
        }
    }

    fn read(&mut self, (number, table): &(u32, Table)) {
        self.word(*number);
        self.table(table);
    }

    /// The sheet without the fields that were added since, which are of 0.
    fn sheet(&mut self, table: &Table, write: fn(&Table, &mut [u8]) -> (u32, u32)) {
        let mut lent = [165; LONGEST_SHEET];
        let (number, length) = write(table, &mut lent);
        self.word(number);
        if number == 0 {
            let sheet = &lent[..length as usize];
            let old = self.before.old_sheet(sheet);
            assert_eq!(self.before.new_sheet(&old), sheet);
            self.bytes(&old);
        }
    }

    fn plan(&mut self, plan: &Plan) {
        self.word(plan.number);
        self.bytes(&plan.order);
        self.number(plan.left);
    }

    fn least(&mut self, least: &Least) {
        self.words(&[least.number, least.speed]);
        self.bytes(&least.order);
    }

    fn verdict(&mut self, verdict: &Verdict) {
        self.word(verdict.number);
        self.bytes(&[u8::from(verdict.yes), verdict.row]);
        self.number(verdict.slack as u64);
    }

    fn report(
        &mut self,
        table: &Table,
        order: &Order,
        report: fn(&Table, &Order, &mut [u8]) -> (u32, u32),
    ) {
        let mut lent = [165; LONGEST_REPORT];
        let (number, length) = report(table, order, &mut lent);
        self.words(&[number, length]);
        self.bytes(&lent);
    }

    fn record(&mut self, record: &Record) {
        self.table(&record.table);
        self.bytes(&record.order);
        self.word(record.clock);
        for column in [&record.got, &record.used, &record.closing] {
            self.words(column);
        }
    }

    fn one_slot(&mut self, answer: &OneSlot) {
        self.words(&[answer.number, u32::from(answer.row)]);
        self.record(&answer.record);
    }

    fn forward(&mut self, answer: &Forward) {
        self.words(&[answer.number, answer.worked]);
        self.record(&answer.record);
    }
}
