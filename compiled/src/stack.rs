//! Peak stack of a call: it runs on a thread whose stack is our own memory. The
//! thread paints what lies below it with a pattern, makes the call, and counts
//! how much of the pattern is left. Linux with POSIX threads.

use crate::raw::{self, StateWords, TableWords};
use crate::sheets::{
    chain, easy, easy_loading, grouped, hard, largest, late_promises, longest_windows, promising,
};
use model::cases::choices::{rising, wherever};
use model::cases::sentences::{longest, refused_sentences, P1_PLANNED, P1_ROW_TWICE};
use model::choices::{MOST_COUNTED, SCRATCH};
use model::order::{order_of, Order};
use model::plain;
use model::record::Record;
use model::report::LONGEST_REPORT;
use model::sentences::LONGEST_OF_PLANNER;
use model::sheet::{sheet_of, LONGEST_SHEET};
use model::table::{earliest_release, Row, Table, LATEST_DEADLINE};
use std::ffi::{c_int, c_void};
use std::hint::black_box;
use std::ptr;

const PATTERN: u64 = 0x5AFE_57AC_5AFE_57AC;

/// Pages of the stack: one mebibyte.
const PAGES: usize = 256;
const PAGE_WORDS: usize = 512;

/// Bytes just below the caller's mark that stay unpainted, since its own frame
/// is there. A call that takes fewer is counted as taking these.
const UNPAINTED: usize = 512;

#[repr(C, align(4096))]
#[derive(Clone, Copy)]
struct Page([u64; PAGE_WORDS]);

/// Room for a thread's attributes, which take 56 bytes on x86-64 Linux.
#[repr(C, align(16))]
struct Attributes([u64; 32]);

type Thread = usize;

extern "C" {
    fn pthread_attr_init(attributes: *mut Attributes) -> c_int;
    fn pthread_attr_setstack(attributes: *mut Attributes, low: *mut c_void, size: usize) -> c_int;
    fn pthread_create(
        thread: *mut Thread,
        attributes: *const Attributes,
        start: extern "C" fn(*mut c_void) -> *mut c_void,
        argument: *mut c_void,
    ) -> c_int;
    fn pthread_join(thread: Thread, result: *mut *mut c_void) -> c_int;
}

/// What the thread is handed: the call, its stack's lowest word, and room for
/// the peak in bytes.
struct Job<'a> {
    call: &'a mut dyn FnMut(),
    low: *mut u64,
    peak: usize,
}

/// Most bytes of stack that the call takes.
pub fn peak(call: &mut dyn FnMut()) -> usize {
    // The first call may load or resolve something; the second is measured.
    peak_once(call);
    peak_once(call)
}

fn peak_once(call: &mut dyn FnMut()) -> usize {
    let mut pages = vec![Page([0; PAGE_WORDS]); PAGES];
    let mut job = Job {
        call,
        low: pages.as_mut_ptr().cast(),
        peak: 0,
    };
    run_on(&mut pages, &mut job);
    job.peak
}

fn run_on(pages: &mut [Page], job: &mut Job) {
    let argument: *mut Job = job;
    let low: *mut c_void = pages.as_mut_ptr().cast();
    let mut attributes = Attributes([0; 32]);
    let mut thread: Thread = 0;
    // SAFETY: the stack and the job outlive the thread, which is joined here.
    unsafe {
        assert_eq!(pthread_attr_init(&mut attributes), 0);
        let size = std::mem::size_of_val(pages);
        assert_eq!(pthread_attr_setstack(&mut attributes, low, size), 0);
        let created = pthread_create(&mut thread, &attributes, start, argument.cast());
        assert_eq!(created, 0);
        assert_eq!(pthread_join(thread, ptr::null_mut()), 0);
    }
}

extern "C" fn start(argument: *mut c_void) -> *mut c_void {
    let mark = 0u64;
    let mark = black_box(&mark) as *const u64 as usize;
    // SAFETY: `run_on` hands in a pointer to its job and waits for the thread.
    // The words from `low` on are this thread's stack, unused below its frame.
    unsafe {
        let job: &mut Job = &mut *argument.cast();
        let words = (mark - UNPAINTED - job.low as usize) / 8;
        let mut word = 0;
        while word < words {
            job.low.add(word).write_volatile(PATTERN);
            word += 1;
        }
        (job.call)();
        let mut untouched = 0;
        while untouched < words && job.low.add(untouched).read_volatile() == PATTERN {
            untouched += 1;
        }
        job.peak = mark - (job.low.add(untouched) as usize);
    }
    ptr::null_mut()
}

/// A table in every form that a call takes it, with an order of it and a run.
struct Inputs {
    sheet: Vec<u8>,
    table: TableWords,
    rows: Vec<raw::RowWords>,
    /// N and G in work units per slot, K in slots.
    figures: [u32; 3],
    order: Order,
    state: StateWords,
    /// What is committed: the table released later, with the planner's order or, if there is
    /// none, with this one.
    next: (TableWords, Order),
    /// Sentences, the longest among them, and bytes that are none.
    lines: Vec<Vec<u8>>,
    /// Tables whose orders are counted, beside this one.
    counted: Vec<TableWords>,
}

impl Inputs {
    /// The table with its rows in order, and its run after some slots at N.
    fn of(table: &Table, slots: usize) -> Inputs {
        let order = in_order(table);
        let record = Record::fresh(table, &order).1;
        let reached = record.forward(&vec![table.normal; slots]).record;
        Inputs::with(table, &reached)
    }

    /// The table with its rows in order, all of them closed at clock 1, so that the next one
    /// can be committed.
    fn over(table: &Table) -> Inputs {
        let mut over = Record::starting(table, &in_order(table), 1);
        over.got = table.work;
        over.closing[..table.n as usize].fill(1);
        Inputs::with(table, &over)
    }

    fn with(table: &Table, reached: &Record) -> Inputs {
        let order = in_order(table);
        let planned = plain::plan(table);
        let next = if planned.number == 0 {
            planned.order
        } else {
            order
        };
        Inputs {
            sheet: sheet_of(table),
            table: raw::table_words(table),
            rows: table.rows().iter().map(Row::figures).collect(),
            figures: [table.normal, table.degraded, table.loading],
            order,
            state: raw::state_words(reached),
            next: (raw::table_words(&released_later(table)), next),
            lines: lines_to_read(),
            counted: counted_tables().iter().map(raw::table_words).collect(),
        }
    }
}

/// The longest sentence of each kind, a short one of each, and all bytes that are refused by hand.
fn lines_to_read() -> Vec<Vec<u8>> {
    let long = longest().map(|case| case.sentence.into_bytes());
    let short = [P1_PLANNED, P1_ROW_TWICE].map(|line| line.as_bytes().to_vec());
    let refused = refused_sentences().into_iter().map(|case| case.bytes);
    long.into_iter().chain(short).chain(refused).collect()
}

/// Tables of twelve rows, the most that are counted: all orders, one order, and rows that load,
/// promise parts or have waits.
fn counted_tables() -> [Table; 7] {
    let n = MOST_COUNTED;
    [
        wherever(n),
        rising(n),
        hard(n),
        grouped(n, 0),
        chain(n, 16),
        late_promises(n, 0),
        promising(&easy_loading(n, 16)),
    ]
}

fn in_order(table: &Table) -> Order {
    let rows: Vec<u8> = (1..=table.n as u8).collect();
    order_of(&rows)
}

/// The table a slot later, up to the latest deadline there is; as it is if no row is released
/// at 0.
fn released_later(table: &Table) -> Table {
    if earliest_release(table) > 0 {
        return *table;
    }
    let mut later = table.later(1);
    for deadline in &mut later.deadline {
        *deadline = LATEST_DEADLINE.min(*deadline);
    }
    later
}

/// Most bytes of stack that each export took, without what the caller lends:
/// the most over easy, hard and large tables of 64 rows, some of which load, promise parts
/// or have waits, one row, and tables and orders that are refused. Their records are fresh,
/// after some slots, or over, where a correct order is committed. Orders are counted of tables of
/// twelve rows as well.
pub fn peaks() -> Vec<(&'static str, usize)> {
    let mut refused = hard(64);
    refused.level[63] = 2;
    let tables = [
        hard(64),
        late_promises(64, 0),
        grouped(64, 0),
        chain(64, 16),
        easy_loading(64, 16),
        promising(&easy_loading(64, 16)),
        largest(999_999).with_loading(16),
        longest_windows(),
        easy(1),
        refused,
    ];
    let inputs: Vec<Inputs> = tables
        .iter()
        .flat_map(|table| {
            [
                Inputs::of(table, 0),
                Inputs::of(table, 70),
                Inputs::over(table),
            ]
        })
        .collect();
    CALLS
        .iter()
        .map(|(name, call)| {
            let over_inputs = inputs.iter().map(|input| peak(&mut || call(input)));
            (*name, over_inputs.max().unwrap_or(0))
        })
        .collect()
}

/// The figure that the header states for a call that took this many bytes: 64 bytes
/// more, rounded up to a multiple of 256; 512 as it is, since that stands for less.
pub fn to_state(bytes: usize) -> usize {
    if bytes == UNPAINTED {
        return bytes;
    }
    (bytes + 64).next_multiple_of(256)
}

type Call = fn(&Inputs);

/// Every export with the memory that it is lent. What is written lies outside
/// the measured stack, in `Results`.
const CALLS: [(&str, Call); 25] = [
    ("jb_read", |on| {
        with_results(|out| unsafe {
            raw::jb_read(on.sheet.as_ptr(), on.sheet.len(), &mut out.table);
        })
    }),
    ("jb_write", |on| {
        with_results(|out| unsafe {
            let (sheet, room) = (out.sheet.as_mut_ptr(), out.sheet.len());
            raw::jb_write(&on.table, sheet, room, &mut out.words[0]);
        })
    }),
    ("jb_field", |_| {
        with_results(|out| unsafe {
            raw::jb_field(12_345_678, &mut out.field);
        })
    }),
    ("jb_plan", |on| {
        with_results(|out| unsafe {
            raw::jb_plan(&on.table, &mut out.order, &mut out.left);
        })
    }),
    ("jb_plan_within", |on| {
        with_results(|out| unsafe {
            for ceiling in CEILINGS {
                let (order, left) = (&mut out.order, &mut out.left);
                raw::jb_plan_within(&on.table, ceiling, order, left, &mut out.words[0]);
            }
        })
    }),
    ("jb_ask", |on| {
        with_results(|out| unsafe {
            let (sheet, length) = (on.sheet.as_ptr(), on.sheet.len());
            let (table, order) = (&mut out.table, &mut out.order);
            raw::jb_ask(sheet, length, table, order, &mut out.left);
        })
    }),
    ("jb_least_degraded", |on| {
        with_results(|out| unsafe {
            raw::jb_least_degraded(&on.table, &mut out.words[0], &mut out.order);
        })
    }),
    ("jb_least_normal", |on| {
        with_results(|out| unsafe {
            raw::jb_least_normal(&on.table, &mut out.words[0], &mut out.order);
        })
    }),
    ("jb_read_least_degraded", |on| {
        with_results(|out| unsafe {
            let (sheet, length) = (on.sheet.as_ptr(), on.sheet.len());
            raw::jb_read_least_degraded(sheet, length, &mut out.words[0], &mut out.order);
        })
    }),
    ("jb_read_least_normal", |on| {
        with_results(|out| unsafe {
            let (sheet, length) = (on.sheet.as_ptr(), on.sheet.len());
            raw::jb_read_least_normal(sheet, length, &mut out.words[0], &mut out.order);
        })
    }),
    ("jb_judge", |on| {
        with_results(|out| unsafe {
            let [yes, row, ..] = &mut out.words;
            raw::jb_judge(&on.table, &on.order, yes, row, &mut out.slack);
        })
    }),
    ("jb_judge_rows", |on| {
        let [normal, degraded, loading] = on.figures;
        let (rows, count) = (on.rows.as_ptr(), on.rows.len());
        black_box(unsafe { raw::jb_judge_rows(rows, count, normal, degraded, loading, &on.order) });
    }),
    ("jb_finishes", |on| {
        with_results(|out| unsafe {
            raw::jb_finishes(&on.table, &on.order, &mut out.words);
        })
    }),
    ("jb_report", |on| {
        with_results(|out| unsafe {
            let (report, room) = (out.report.as_mut_ptr(), out.report.len());
            raw::jb_report(&on.table, &on.order, report, room, &mut out.words[0]);
        })
    }),
    ("jb_count", |on| {
        with_results(|out| unsafe {
            for table in on.counted.iter().chain([&on.table]) {
                for numbers in [SCRATCH, SCRATCH - 1] {
                    let (scratch, count) = (out.scratch.as_mut_ptr(), &mut out.words[0]);
                    raw::jb_count(table, scratch, numbers, count, &mut out.lowest);
                }
            }
        })
    }),
    ("jb_fresh", |on| {
        with_results(|out| unsafe {
            let (table, order, state) = (&mut out.table, &mut out.order, &mut out.state);
            raw::jb_fresh(&on.table, &on.order, table, order, state);
        })
    }),
    ("jb_coming", |on| {
        with_results(|out| unsafe {
            raw::jb_coming(&on.table, &on.order, &on.state, &mut out.words[0]);
        })
    }),
    ("jb_slot", |on| {
        with_results(|out| unsafe {
            out.state = on.state;
            let [_, degraded, _] = on.figures;
            let row = &mut out.words[0];
            raw::jb_slot(&on.table, &on.order, &mut out.state, degraded, row);
        })
    }),
    ("jb_forward", |on| {
        with_results(|out| unsafe {
            out.state = on.state;
            let (supplies, count) = (SUPPLIES.as_ptr(), SUPPLIES.len());
            let worked = &mut out.words[0];
            raw::jb_forward(
                &on.table,
                &on.order,
                &mut out.state,
                supplies,
                count,
                worked,
            );
        })
    }),
    ("jb_commit", |on| {
        with_results(|out| unsafe {
            out.table = on.table;
            out.order = on.order;
            out.state = on.state;
            let (table, order) = &on.next;
            let (run_table, run_order) = (&mut out.table, &mut out.order);
            raw::jb_commit(table, order, run_table, run_order, &mut out.state);
        })
    }),
    ("jb_program", |on| {
        with_results(|out| unsafe {
            raw::jb_program(on.sheet.as_ptr(), on.sheet.len(), &mut out.text);
        })
    }),
    ("jb_plan_sentence", |_| {
        with_results(|out| unsafe {
            for (number, left, order, trials) in PLANS {
                for room in [LONGEST_OF_PLANNER, 0] {
                    let (line, length) = (out.line.as_mut_ptr(), &mut out.words[0]);
                    raw::jb_plan_sentence(number, left, order, trials, line, room, length);
                }
            }
        })
    }),
    ("jb_judge_sentence", |_| {
        with_results(|out| unsafe {
            for (number, yes, row, slack) in VERDICTS {
                for room in [LONGEST_OF_PLANNER, 0] {
                    let (line, length) = (out.line.as_mut_ptr(), &mut out.words[0]);
                    raw::jb_judge_sentence(number, yes, row, slack, line, room, length);
                }
            }
        })
    }),
    ("jb_read_sentence", |on| {
        with_results(|out| unsafe {
            for line in &on.lines {
                let [kind, number, trials, yes, row, ..] = &mut out.words;
                raw::jb_read_sentence(
                    line.as_ptr(),
                    line.len(),
                    kind,
                    number,
                    &mut out.left,
                    &mut out.order,
                    trials,
                    yes,
                    row,
                    &mut out.slack,
                );
            }
        })
    }),
    ("jb_version", |_| {
        black_box(unsafe { raw::jb_version() });
    }),
];

static SUPPLIES: [u32; 3_000] = [2; 3_000];

/// Planner's answers, of which one has the longest sentence: number, rows left, order and trials.
static PLANS: [(u32, u64, &Order, u32); 3] = [
    (5, u64::MAX, &[255; 64], u32::MAX),
    (7, 3, &[0; 64], 2),
    (0, 0, &[1; 64], 64),
];

/// Judge's answers, of which one has the longest sentence: number, yes, row, and slack in slots.
static VERDICTS: [(u32, u32, u32, i32); 3] = [
    (5, u32::MAX, u32::MAX, i32::MIN),
    (0, 1, 1, 0),
    (0, 0, 64, -10),
];

/// Ceilings that are too low for most tables, and one that no table needs, in trials.
const CEILINGS: [u32; 4] = [0, 1, 100, u32::MAX];

/// Memory for the results of every call.
struct Results {
    sheet: [u8; LONGEST_SHEET],
    report: [u8; LONGEST_REPORT],
    field: [u8; 8],
    table: TableWords,
    order: Order,
    state: StateWords,
    words: raw::Finishes,
    left: u64,
    slack: i32,
    text: [u8; raw::TEXT],
    line: [u8; LONGEST_OF_PLANNER],
    scratch: [u32; SCRATCH],
    lowest: raw::Lowest,
}

/// Makes a call with memory for its results that is not on the stack.
fn with_results(call: impl FnOnce(&mut Results)) {
    use std::sync::Mutex;
    static RESULTS: Mutex<Results> = Mutex::new(Results {
        sheet: [0; LONGEST_SHEET],
        report: [0; LONGEST_REPORT],
        field: [0; 8],
        table: [0; raw::TABLE_WORDS],
        order: [0; 64],
        state: [0; raw::STATE_WORDS],
        words: [0; 64],
        left: 0,
        slack: 0,
        text: [0; raw::TEXT],
        line: [0; LONGEST_OF_PLANNER],
        scratch: [0; SCRATCH],
        lowest: [0; 64],
    });
    let mut results = RESULTS.lock().expect("no call panics");
    call(&mut results);
    black_box(&results.words);
}
