//! Sheets asked about, commits and days (section 22 of the rules), worked out by hand. Works
//! are in work units, clocks in slots.

use super::waits::{chain, urgent};
use super::{at_loading, p1, p2, p3, promising_preview, row, serving, table};
use crate::calls::{Answer, Call, LAST_CLOCK};
use crate::order::{order_of, NO_ORDER};
use crate::proposal::{Act, Asked, InHand, Proposal, Told};
use crate::record::Record;
use crate::run::State;
use crate::sheet::{sheet_of, write_sheet, FIRST_LINE};
use crate::table::{Table, ROWS};

/// The bytes of a sheet and what asking answers to them.
pub struct AskCase {
    pub what: &'static str,
    pub sheet: Vec<u8>,
    pub asked: Asked,
}

/// A record, a proposal, and the number that a commit answers.
pub struct CommitCase {
    pub what: &'static str,
    pub record: Record,
    pub proposal: Proposal,
    pub number: u32,
}

impl CommitCase {
    /// The record afterwards: with 0 the proposal's table and order, the clock that it had and
    /// zeros for all rows; with any other number the record as it was (rules 22.4 and 22.5).
    pub fn after(&self) -> Record {
        let Proposal { table, order } = &self.proposal;
        match self.number {
            0 => Record::holding(table, order, &State::at(self.record.clock)),
            _ => self.record,
        }
    }
}

/// A day that starts on a record with this table, this order, this clock and zeros for all
/// rows, what its acts answer, and the sheet in hand at its end (rule 22.9).
pub struct HandDay {
    pub what: &'static str,
    pub start: InHand,
    pub acts: Vec<Act>,
    pub told: Vec<Told>,
    pub end: InHand,
}

/// A proposal of this table and these rows, highest place first.
pub fn proposal(table: Table, rows: &[u8]) -> Proposal {
    let order = order_of(rows);
    Proposal { table, order }
}

/// The first drawing: a LO row of one slot at N, and a HI row which takes two slots at G. With
/// 2 from every slot they are done at 1 and at 2.
pub fn drawing() -> Proposal {
    proposal(table(2, 1, &[[0, 2, 4, 0], [1, 2, 6, 1]]), &[1, 2])
}

/// A drawing that may come next, with this as its earliest release: a LO row of one slot at N,
/// and a HI row, released a slot later, which takes four slots at G.
pub fn next(release: u32) -> Proposal {
    proposal(table(2, 1, &[[0, 2, 4, 0], [1, 4, 9, 1]]), &[1, 2]).later(release)
}

/// The record of the first drawing at this clock, from 2 on: its rows were done at 1 and at 2.
pub fn drawn(clock: u32) -> Record {
    in_hand(drawing(), clock, &[[2, 1, 1], [2, 1, 2]]).record()
}

/// The asking that answers 0 with this table and this order.
fn planned(table: Table, rows: &[u8]) -> Asked {
    Asked {
        number: 0,
        table,
        order: order_of(rows),
        left: 0,
    }
}

/// Sheets and what asking answers to them, every number of rule 11.9 among it.
pub fn ask_cases() -> Vec<AskCase> {
    let refused = |number| Asked::refused(number, 0);
    let ask = |what, sheet, asked| AskCase { what, sheet, asked };
    let one = |figures: [u32; 6]| sheet_of(&table(1, 1, &[figures]));
    let two = |second: [u32; 6]| sheet_of(&table(1, 1, &[[1, 1, 9, 0, 0, 0], second]));
    let mut zeros_before = sheet_of(&p1());
    zeros_before[..8].copy_from_slice(b"00000004");
    let mut a_byte_more = sheet_of(&p1());
    a_byte_more.push(10);
    let cut = sheet_of(&p1())[..FIRST_LINE - 1].to_vec();
    vec![
        ask("P1", sheet_of(&p1()), planned(p1(), &[1, 2, 3, 4])),
        ask("P2", sheet_of(&p2()), planned(p2(), &[3, 1, 2, 4])),
        ask(
            "a chain of three",
            sheet_of(&chain(1, 2)),
            planned(chain(1, 2), &[1, 2, 3]),
        ),
        ask(
            "a sheet of a later time",
            sheet_of(&p1().later(5_000)),
            planned(p1().later(5_000), &[1, 2, 3, 4]),
        ),
        ask("P3, both rows left", sheet_of(&p3()), Asked::refused(7, 3)),
        ask(
            "7 with one of two rows left",
            sheet_of(&table(1, 1, &[[0, 1, 1, 0], [1, 2, 2, 0]])),
            Asked::refused(7, 0b10),
        ),
        ask("no bytes", vec![], refused(1)),
        ask("a byte less than the first line", cut, refused(1)),
        ask("a byte more than the sheet", a_byte_more, refused(1)),
        ask("zeros before the count", zeros_before, refused(2)),
        ask("no rows", write_sheet(0, 2, 1, 0, &[]), refused(3)),
        ask(
            "G above N",
            write_sheet(1, 2, 3, 0, &[row([0, 1, 9, 0])]),
            refused(4),
        ),
        ask(
            "K of 17",
            write_sheet(1, 2, 1, 17, &[row([0, 1, 9, 0])]),
            refused(11),
        ),
        ask(
            "released at its deadline",
            one([4, 1, 4, 0, 0, 0]),
            refused(5),
        ),
        ask(
            "more promised than work",
            one([0, 1, 4, 0, 2, 0]),
            refused(12),
        ),
        ask("it follows itself", one([0, 1, 4, 0, 0, 1]), refused(13)),
        ask(
            "it follows a later row",
            two([0, 1, 9, 0, 0, 1]),
            refused(14),
        ),
        ask("HI follows LO", two([1, 1, 9, 1, 0, 1]), refused(15)),
    ]
}

/// Commits at clocks of every kind, on records with open and with closed rows.
pub fn commits_by_clock() -> Vec<CommitCase> {
    let case = commit_case;
    let short = proposal(table(1, 1, &[[0, 1, 1, 0]]), &[1]);
    let last = proposal(table(1, 1, &[[999_999, 1, 1_000_000, 0]]), &[1]);
    let mut second_before = next(7);
    second_before.table.release[1] = 6;
    vec![
        case(
            "at clock 0 every row is open",
            drawing().worked(&[]),
            next(0),
            17,
        ),
        case(
            "so it is with a later release",
            drawing().worked(&[]),
            next(9),
            17,
        ),
        case(
            "clock 1, the earliest there is",
            short.worked(&[1]),
            next(1),
            0,
        ),
        case("a row is open", drawing().worked(&[2]), next(2), 17),
        case(
            "a row got nothing from its slot",
            drawing().worked(&[2, 0]),
            next(2),
            17,
        ),
        case(
            "the clock of the last closing",
            drawing().worked(&[2, 2]),
            next(3),
            0,
        ),
        case(
            "a release at the clock",
            drawing().worked(&[2, 2]),
            next(2),
            0,
        ),
        case(
            "a release a slot before it",
            drawing().worked(&[2, 2]),
            next(1),
            18,
        ),
        case("a release at 0", drawing().worked(&[2, 2]), next(0), 18),
        case("the release of the second row", drawn(7), second_before, 18),
        case("a release of 7 at clock 7", drawn(7), next(7), 0),
        case("a release of 6 at clock 7", drawn(7), next(6), 18),
        case(
            "a HI row is late and open",
            drawing().worked(&[0; 9]),
            next(9),
            17,
        ),
        case("idle slots after the last closing", drawn(50), next(50), 0),
        case("the latest release there is", drawn(999_999), last, 0),
        case(
            "no release is as late as this clock",
            drawn(1_000_000),
            last,
            18,
        ),
        case("at the last clock", drawn(LAST_CLOCK), last, 18),
        case("after the last clock", drawn(LAST_CLOCK + 1), last, 9),
    ]
}

fn commit_case(what: &'static str, record: Record, proposal: Proposal, number: u32) -> CommitCase {
    CommitCase {
        what,
        record,
        proposal,
        number,
    }
}

/// Sixty-four LO rows of one slot each, with time for all.
fn full() -> Proposal {
    let rows: Vec<u8> = (1..=ROWS as u8).collect();
    proposal(Table::of(1, 1, 0, &[row([0, 1, 64, 0]); ROWS]), &rows)
}

/// Rows that were closed in every way, and sound records that no run reaches.
pub fn commits_by_closing() -> Vec<CommitCase> {
    let case = commit_case;
    // Row 1 has 2 slots for 4 work units; row 2 gets no slot before its deadline.
    let dropping = proposal(table(2, 1, &[[0, 4, 9, 0], [0, 2, 2, 0]]), &[1, 2]);
    let mut before_release = drawn(2);
    before_release.table.release[1] = 5;
    let mut after_deadline = drawn(9);
    (after_deadline.used[0], after_deadline.closing[0]) = (9, 9);
    let three = proposal(chain(1, 2), &[1, 2, 3]);
    vec![
        case(
            "dropped, for slots and by the clock",
            dropping.worked(&[0, 0]),
            next(2),
            0,
        ),
        case(
            "sound though closed before its release",
            before_release,
            next(2),
            0,
        ),
        case(
            "sound though closed after its deadline",
            after_deadline,
            next(9),
            0,
        ),
        case(
            "the last of 64 rows is open",
            full().worked(&[1; 63]),
            next(70),
            17,
        ),
        case("64 rows are closed", full().worked(&[1; 64]), next(64), 0),
        case("64 rows come next", drawn(3), full().later(3), 0),
        case("a follower is open", three.worked(&[1, 1]), next(2), 17),
        case("a chain is over", three.worked(&[1, 1, 1]), next(3), 0),
    ]
}

/// Correct orders and others, all at a clock at which nothing else is wrong.
pub fn commits_by_order() -> Vec<CommitCase> {
    let at_7 = |what, of: Proposal, number| commit_case(what, drawn(7), of.later(7), number);
    let preview = |deadline, promised| proposal(promising_preview(deadline, promised), &[1]);
    vec![
        at_7("P1 and its order", proposal(p1(), &[1, 2, 3, 4]), 0),
        at_7("P1 and the order of P2", proposal(p1(), &[3, 1, 2, 4]), 16),
        at_7("P2 and its order", proposal(p2(), &[3, 1, 2, 4]), 0),
        at_7("P2 and the order of P1", proposal(p2(), &[1, 2, 3, 4]), 16),
        at_7(
            "P3, which has no correct order",
            proposal(p3(), &[1, 2]),
            16,
        ),
        at_7("P3, its rows turned round", proposal(p3(), &[2, 1]), 16),
        at_7(
            "it serves in runs only",
            proposal(serving(), &[1, 2, 3]),
            16,
        ),
        at_7("a promise a slot late", preview(3, 4), 16),
        at_7("a promise in time", preview(4, 4), 0),
        at_7("K 0 and its order", proposal(at_loading(0), &[2, 1]), 0),
        at_7(
            "K 1 and the order of K 0",
            proposal(at_loading(1), &[2, 1]),
            16,
        ),
        at_7("K 1 and its order", proposal(at_loading(1), &[1, 2]), 0),
        at_7("an order of fewer rows", proposal(p1(), &[1, 2]), 6),
        at_7("an order of zeros", proposal(p1(), &[]), 6),
    ]
}

/// The waits that count are those of the proposal and not those in the record.
pub fn commits_by_waits() -> Vec<CommitCase> {
    let case = commit_case;
    let over = |of: Table, rows: &[u8]| proposal(of, rows).worked(&[1; 9]);
    let (free, waiting) = (over(chain(0, 0), &[3, 2, 1]), over(chain(1, 2), &[1, 2, 3]));
    let of = |table: Table, rows: &[u8]| proposal(table, rows).later(9);
    vec![
        case(
            "waits of the proposal kept",
            free,
            of(chain(1, 2), &[1, 2, 3]),
            0,
        ),
        case(
            "waits of the proposal broken",
            free,
            of(chain(1, 2), &[3, 2, 1]),
            6,
        ),
        case(
            "waits of the record broken",
            waiting,
            of(chain(0, 0), &[3, 2, 1]),
            0,
        ),
        case(
            "the row in front, as the table lets it",
            waiting,
            of(urgent(3, 0), &[2, 1, 3]),
            0,
        ),
        case(
            "the same with a wait",
            free,
            of(urgent(3, 1), &[2, 1, 3]),
            6,
        ),
        case(
            "the wait kept, and too late",
            free,
            of(urgent(3, 1), &[1, 2, 3]),
            16,
        ),
    ]
}

/// What is wrong, and how a sound record comes to that.
type Damage = (&'static str, fn(&mut Record));

/// Damaged records with a good proposal and with one of zeros.
pub fn commits_on_damage() -> Vec<CommitCase> {
    let damages: [Damage; 11] = [
        ("closed at clock 0", |record| record.clock = 0),
        ("clock after the last", |record| {
            record.clock = LAST_CLOCK + 1
        }),
        ("closed after the clock", |record| record.closing[1] = 8),
        ("more got than its work", |record| record.got[0] = 3),
        ("more used than the clock", |record| record.used[1] = 8),
        ("open though done", |record| record.closing[0] = 0),
        ("closed for no reason", |record| record.got[1] = 1),
        ("closed after the last row", |record| record.closing[2] = 1),
        ("no order in it", |record| record.order = NO_ORDER),
        ("no rows in it", |record| record.table.n = 0),
        ("no table in it", |record| record.table = Table::ZERO),
    ];
    let nothing = proposal(Table::ZERO, &[]);
    let mut cases = Vec::new();
    for (what, damage) in damages {
        let mut record = drawn(7);
        damage(&mut record);
        cases.push(commit_case(what, record, next(7), 9));
        cases.push(commit_case(what, record, nothing, 9));
    }
    cases
}

/// A number, what is wrong, and how a commit in which nothing is wrong comes to that.
pub type CommitFault = (u32, &'static str, fn(&mut Record, &mut Proposal));

/// A commit in which nothing is wrong: of four rows at clock 2.
pub fn good_commit() -> (Record, Proposal) {
    let rows = [
        [2, 1, 20, 0, 0, 0],
        [2, 1, 20, 0, 0, 1],
        [3, 1, 20, 1, 0, 0],
        [3, 1, 4, 0, 0, 0],
    ];
    (drawn(2), proposal(table(1, 1, &rows), &[4, 1, 2, 3]))
}

/// One fault for each number of rule 11.10, in the order of the checks. Any of them may be put
/// in together, the last of them first: then the first one gives the number.
pub fn commit_faults() -> [CommitFault; 13] {
    [
        (9, "a closing slot after the last row", |record, _| {
            record.closing[63] = 1
        }),
        (3, "65 rows", |_, of| of.table.n = 65),
        (4, "N of 0", |_, of| of.table.normal = 0),
        (11, "K of 17", |_, of| of.table.loading = 17),
        (5, "row 1 of level 2", |_, of| of.table.level[0] = 2),
        (12, "row 1 promises 2 of 1", |_, of| {
            of.table.promised[0] = 2
        }),
        (13, "row 2 follows itself", |_, of| of.table.follows[1] = 2),
        (14, "row 3 is released before row 2", |_, of| {
            (of.table.release[2], of.table.follows[2]) = (1, 2);
        }),
        (15, "row 4 is HI and follows row 1", |_, of| {
            (of.table.level[3], of.table.follows[3]) = (1, 1);
        }),
        (6, "row 1 twice", |_, of| of.order = order_of(&[1, 1, 2, 3])),
        (16, "row 4 lowest", |_, of| {
            of.order = order_of(&[1, 2, 3, 4])
        }),
        (17, "row 2 of the record is open", |record, _| {
            (record.got[1], record.closing[1]) = (1, 0);
        }),
        (18, "row 1 is released at 1", |_, of| {
            of.table.release[0] = 1
        }),
    ]
}

/// Each fault with all later ones: 9 and all others first, then 3 and those after it, and at
/// last no fault at all (rule 11.10).
pub fn commits_in_turn() -> Vec<CommitCase> {
    let (mut record, mut of) = good_commit();
    let mut cases = vec![commit_case("nothing is wrong", record, of, 0)];
    for (number, what, put_in) in commit_faults().into_iter().rev() {
        put_in(&mut record, &mut of);
        cases.insert(0, commit_case(what, record, of, number));
    }
    cases
}

/// Each fault alone.
pub fn commits_with_one_fault() -> Vec<CommitCase> {
    let alone = |(number, what, put_in): CommitFault| {
        let (mut record, mut of) = good_commit();
        put_in(&mut record, &mut of);
        commit_case(what, record, of, number)
    };
    commit_faults().map(alone).into_iter().collect()
}

/// All commits above.
pub fn commit_cases() -> Vec<CommitCase> {
    let mut cases = commits_by_clock();
    cases.extend(commits_by_closing());
    cases.extend(commits_by_order());
    cases.extend(commits_by_waits());
    cases.extend(commits_on_damage());
    cases.extend(commits_in_turn());
    cases.extend(commits_with_one_fault());
    cases
}

/// The sheet in hand with this clock and work got, slots used and closing slot of each row.
fn in_hand(of: Proposal, clock: u32, ends: &[[u32; 3]]) -> InHand {
    let mut state = State::at(clock);
    for (index, &[got, used, closing]) in ends.iter().enumerate() {
        (state.got[index], state.used[index], state.closing[index]) = (got, used, closing);
    }
    InHand {
        state,
        ..starting(of, 0)
    }
}

fn starting(of: Proposal, clock: u32) -> InHand {
    InHand::starting(&of.table, &of.order, clock)
}

/// One slot with this supply, and the row that it runs.
fn slot(supply: u32, row: u8) -> (Act, Told) {
    let answer = Answer::OneSlot { number: 0, row };
    (Act::Call(Call::OneSlot(supply)), Told::Call(answer))
}

/// Forward over these supplies, all of which are worked.
fn forward(supplies: &[u32]) -> (Act, Told) {
    let worked = supplies.len() as u32;
    let answer = Answer::Forward { number: 0, worked };
    (
        Act::Call(Call::Forward(supplies.to_vec())),
        Told::Call(answer),
    )
}

/// A commit and its number.
fn commit(of: Proposal, number: u32) -> (Act, Told) {
    (Act::Commit(Box::new(of)), Told::Commit(number))
}

fn hand_day(what: &'static str, start: InHand, acts: Vec<(Act, Told)>, end: InHand) -> HandDay {
    let (acts, told) = acts.into_iter().unzip();
    HandDay {
        what,
        start,
        acts,
        told,
        end,
    }
}

/// One LO row of one slot at N with four slots for it: with a supply of 0 it is dropped at 1.
pub fn lost_preview() -> Proposal {
    proposal(table(2, 1, &[[0, 2, 4, 0]]), &[1])
}

/// Days worked out by hand. All rows of the last sheet have kept their deadlines where the
/// slots from its earliest release on supplied enough.
pub fn hand_days() -> Vec<HandDay> {
    vec![
        hand_day(
            "idle slots between two drawings",
            starting(drawing(), 0),
            vec![
                forward(&[2, 2]),
                commit(next(5), 0),
                forward(&[0, 0, 0]),
                slot(2, 1),
                forward(&[1, 1, 1, 1]),
            ],
            in_hand(next(5), 10, &[[2, 1, 6], [4, 4, 10]]),
        ),
        hand_day(
            "no supply before the earliest release of the new sheet",
            starting(lost_preview(), 0),
            vec![
                forward(&[0]),
                commit(next(3), 0),
                forward(&[0, 0]),
                forward(&[2, 1, 1, 1, 1]),
            ],
            in_hand(next(3), 8, &[[2, 1, 4], [4, 4, 8]]),
        ),
        hand_day(
            "refused, and at last accepted",
            starting(drawing(), 0),
            vec![
                commit(next(0), 17),
                slot(2, 1),
                commit(next(2), 17),
                slot(2, 2),
                commit(next(1), 18),
                commit(proposal(p1(), &[4, 3, 2, 1]).later(2), 16),
                commit(proposal(p1(), &[4, 3, 2]).later(2), 6),
                commit(next(2), 0),
                commit(next(2), 17),
                slot(2, 1),
            ],
            in_hand(next(2), 3, &[[2, 1, 3], [0, 0, 0]]),
        ),
        hand_day(
            "three sheets, each as soon as the last is over",
            starting(proposal(chain(1, 2), &[1, 2, 3]), 0),
            vec![
                forward(&[1, 1, 1]),
                commit(proposal(chain(0, 0), &[3, 2, 1]).later(3), 0),
                slot(1, 3),
                slot(1, 2),
                slot(1, 1),
                forward(&[]),
                commit(drawing().later(6), 0),
                slot(2, 1),
                slot(2, 2),
                slot(9, 0),
            ],
            in_hand(drawing().later(6), 9, &[[2, 1, 7], [2, 1, 8]]),
        ),
        hand_day(
            "dropped rows make room for a sheet with fewer",
            starting(proposal(chain(0, 1), &[1, 2, 3]), 0),
            vec![
                forward(&[0, 0, 0]),
                commit(lost_preview().later(3), 0),
                slot(1, 1),
            ],
            in_hand(lost_preview().later(3), 4, &[[1, 1, 4]]),
        ),
        hand_day(
            "from a committed record on",
            starting(next(5), 3),
            vec![
                slot(9, 0),
                slot(9, 0),
                slot(1, 1),
                forward(&[4]),
                commit(next(7), 0),
                slot(0, 1),
            ],
            in_hand(next(7), 8, &[[0, 1, 8], [0, 0, 0]]),
        ),
        hand_day(
            "the first order is not correct",
            starting(proposal(p3(), &[1, 2]), 0),
            vec![
                forward(&[1, 1, 1, 1, 1]),
                commit(proposal(p3(), &[1, 2]).later(5), 16),
                commit(next(5), 0),
            ],
            in_hand(next(5), 5, &[]),
        ),
    ]
}
