//! A row's worst finish depends on which rows stand above it, and neither on
//! their order nor on the rows below it. (For arrangements that break waits: `waits`.)

mod common;

use common::{all_rows, Kinds};
use model::order::{keeps_waits, orders};
use model::plan::worst_finish;
use model::random::{table_of_rows_in, Random, Ranges};
use std::collections::HashMap;

const RANGES: Ranges = Ranges {
    rows: 5,
    speed: 4,
    release: 8,
    need: 4,
    window: 9,
};

#[test]
fn worst_finish_depends_on_the_set_above_only() {
    let mut random = Random::seeded(31);
    let (mut compared, mut differ_by_set) = (0u32, 0u32);
    let mut kinds = Kinds::default();
    for round in 0..1_200 {
        let table = table_of_rows_in(&mut random, 2 + round % 4, RANGES);
        kinds.saw(&table);
        // Finish by row and rows above it, for all orders.
        let mut finishes: HashMap<(u8, Vec<u8>), u32> = HashMap::new();
        for order in orders(&table) {
            for place in 0..table.n as usize {
                let row = order[place];
                let mut above = order[..place].to_vec();
                above.sort_unstable();
                let finish = worst_finish(&table, &order, row);
                match finishes.insert((row, above), finish) {
                    Some(other) => {
                        assert_eq!(finish, other, "{table:?} {order:?} row {row}");
                        compared += 1;
                    }
                    None => continue,
                }
            }
        }
        for row in all_rows(&table) {
            let of_row = |((of, _), finish): (&(u8, _), &u32)| (*of == row).then_some(*finish);
            let of_row: Vec<u32> = finishes.iter().filter_map(of_row).collect();
            let differs = of_row.iter().any(|&finish| finish != of_row[0]);
            differ_by_set += u32::from(differs);
        }
    }
    println!("{compared} equal finishes, {differ_by_set} rows finish later under some set");
    assert!(compared > 100_000 && differ_by_set > 2_000);
    kinds.assert_all(20);
}

#[test]
fn a_larger_set_above_never_brings_a_row_forward() {
    let mut random = Random::seeded(32);
    let mut later = 0;
    for _ in 0..2_000 {
        let table = table_of_rows_in(&mut random, 4, RANGES);
        let order = random.one_of(&orders(&table));
        for place in 1..4 {
            // Swapping two neighbours gives the lower one a smaller set above, unless it
            // follows the other.
            let mut swapped = order;
            swapped.swap(place - 1, place);
            if !keeps_waits(&table, &swapped) {
                continue;
            }
            let row = order[place];
            let below = worst_finish(&table, &order, row);
            let above = worst_finish(&table, &swapped, row);
            assert!(above <= below, "{table:?} {order:?} row {row}");
            later += u32::from(above < below);
        }
    }
    assert!(later > 1_000, "{later}");
}
