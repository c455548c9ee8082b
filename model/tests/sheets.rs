//! The sheet reader: the field rule, the order of its checks, damaged sheets and
//! inputs longer than any sheet. The writer: what was read comes back, and lent
//! bytes of every length (section 15 of the rules).

mod common;

use common::{rubbish, Kinds};
use model::cases::{p1, p2, row, table};
use model::program::{planning_program, KEPT};
use model::random::{table_in, Random, Ranges};
use model::sheet::{
    read_field, read_sheet, sheet_of, write_back, write_field, write_line, write_sheet,
    LONGEST_SHEET,
};
use model::table::{check_table, Table, MOST_LOADING};

#[test]
fn fields_of_the_rule() {
    let well_formed: [(&[u8; 8], u32); 6] = [
        (b"       0", 0),
        (b"       7", 7),
        (b"      10", 10),
        (b"12345678", 12_345_678),
        (b"99999999", 99_999_999),
        (b" 1000001", 1_000_001),
    ];
    for (bytes, number) in well_formed {
        assert_eq!(read_field(bytes), Some(number));
        assert_eq!(&write_field(number), bytes);
    }
    let malformed: [&[u8; 8]; 12] = [
        b"        ",
        b"00000004",
        b"      04",
        b"      00",
        b"4       ",
        b"   4    ",
        b"     4 4",
        b"      -4",
        b"      +4",
        b"\t      4",
        b"\x00\x00\x00\x00\x00\x00\x004",
        b"      4\n",
    ];
    for bytes in malformed {
        assert_eq!(read_field(bytes), None, "{bytes:?}");
    }
}

#[test]
fn a_field_is_read_exactly_if_it_is_how_a_number_is_written() {
    let mut random = Random::seeded(11);
    let (mut read, mut refused) = (0, 0);
    for _ in 0..200_000 {
        let digits = random.between(0, 8);
        let most = 10u32.pow(digits).saturating_sub(1);
        let mut field = write_field(random.between(0, most));
        for _ in 0..random.between(0, 2) {
            let place = random.between(0, 7) as usize;
            field[place] = random.one_of(b"0123456789  \n\t/:;\0\xff");
        }
        match read_field(&field) {
            Some(number) => {
                assert_eq!(write_field(number), field);
                read += 1;
            }
            None => {
                let text = String::from_utf8_lossy(&field).into_owned();
                let number = text.trim_start_matches(' ').parse::<u32>();
                let same = number.is_ok_and(|number| write_field(number) == field);
                assert!(!same, "{text:?} is well formed");
                refused += 1;
            }
        }
    }
    assert!(
        read > 20_000 && refused > 20_000,
        "{read} read, {refused} refused"
    );
}

/// Figures up to their limits.
const WIDE: Ranges = Ranges {
    rows: 64,
    speed: 1_000,
    release: 900_000,
    need: 1_000,
    window: 100_000,
};

#[test]
fn sheets_are_read_back_whole() {
    let mut random = Random::seeded(12);
    let mut kinds = Kinds::default();
    for _ in 0..1_000 {
        let table = table_in(&mut random, WIDE);
        let sheet = sheet_of(&table);
        assert_eq!(sheet.len(), 33 + 49 * table.n as usize);
        assert_eq!(read_sheet(&sheet), (0, table));
        kinds.saw(&table);
    }
    kinds.assert_all(10);
}

/// The number for a sheet; a refusal comes with a table of zeros.
fn number(sheet: &[u8]) -> u32 {
    let (number, table) = read_sheet(sheet);
    if number != 0 {
        assert_eq!(table, Table::ZERO);
    }
    number
}

#[test]
fn sheet_checks_come_in_their_order() {
    let good = row([0, 1, 1, 0]);
    let bad = row([4, 1, 4, 2]);
    let promising = row([0, 1, 1, 0, 2, 9]);
    let waiting = row([0, 1, 1, 0, 0, 2]);
    let spoil = |mut sheet: Vec<u8>, place: usize| {
        sheet[place] = b'x';
        sheet
    };
    let with = |mut sheet: Vec<u8>, tail: &[u8]| {
        sheet.extend_from_slice(tail);
        sheet
    };

    // Under 33 bytes comes before everything.
    assert_eq!(number(&[b'x'; 32]), 1);
    assert_eq!(number(&write_line(&[1, 1, 1])), 1);
    assert_eq!(number(&write_line(&[1, 1, 1, 0])[..32]), 1);
    // The first line comes before count, length, rows, speeds and loading time.
    assert_eq!(number(&[b'x'; 33]), 2);
    for place in [7, 15, 23, 31, 32] {
        let sheet = write_sheet(65, 0, 0, 17, &[bad]);
        assert_eq!(number(&spoil(sheet, place)), 2, "byte {place}");
    }
    // The count comes before the length.
    assert_eq!(number(&write_sheet(65, 0, 0, 17, &[])), 3);
    assert_eq!(number(&write_sheet(0, 0, 0, 17, &[])), 3);
    assert_eq!(number(&write_sheet(99_999_999, 1, 1, 0, &[good])), 3);
    // The length comes before the rows' fields and line ends.
    assert_eq!(number(&spoil(write_sheet(2, 0, 0, 17, &[bad]), 40)), 1);
    assert_eq!(
        number(&with(spoil(write_sheet(1, 0, 0, 17, &[bad]), 40), b"\n")),
        1
    );
    // The rows' fields and line ends come before the speeds.
    for place in [40, 48, 56, 64, 72, 80, 81, 82 + 47, 82 + 48] {
        let sheet = write_sheet(2, 0, 0, 17, &[bad, bad]);
        assert_eq!(number(&spoil(sheet, place)), 2, "byte {place}");
    }
    // The speeds come before the loading time, and it before the rows' limits.
    assert_eq!(number(&write_sheet(1, 0, 0, 17, &[bad])), 4);
    assert_eq!(number(&write_sheet(1, 99_999_999, 1, 0, &[good])), 4);
    assert_eq!(number(&write_sheet(1, 1, 1, 17, &[bad])), 11);
    assert_eq!(number(&write_sheet(1, 1, 1, 99_999_999, &[good])), 11);
    for loading in 0..=MOST_LOADING {
        let rows_with = |last| write_sheet(2, 1, 1, loading, &[good, last]);
        assert_eq!(number(&rows_with(bad)), 5);
        assert_eq!(number(&rows_with(promising)), 12);
        assert_eq!(number(&rows_with(waiting)), 13);
        assert_eq!(number(&rows_with(good)), 0);
    }
    // The limits of all rows come before their promises, and those before their waits.
    for rows in [[promising, bad], [bad, promising], [waiting, bad]] {
        assert_eq!(number(&write_sheet(2, 1, 1, 0, &rows)), 5);
    }
    for rows in [[promising, waiting], [waiting, promising]] {
        assert_eq!(number(&write_sheet(2, 1, 1, 0, &rows)), 12);
    }
    assert_eq!(number(&write_sheet(1, 1, 1, 17, &[promising])), 11);
    // Well formed but outside the limits is 5 and not 2.
    assert_eq!(number(&sheet_of(&table(1, 1, &[[0, 1, 1, 2]]))), 5);
    assert_eq!(number(&sheet_of(&table(1, 1, &[[0, 99_999_999, 1, 0]]))), 5);
    assert_eq!(number(&sheet_of(&table(1, 1, &[[0, 1, 99_999_999, 0]]))), 5);
}

#[test]
fn every_other_length_is_refused_with_1() {
    let sheet = sheet_of(&p1());
    for length in 0..sheet.len() {
        assert_eq!(number(&sheet[..length]), 1, "{length} bytes");
    }
    let mut longer = sheet;
    for _ in 0..48 {
        longer.push(b'\n');
        assert_eq!(number(&longer), 1, "{} bytes", longer.len());
    }
}

#[test]
fn every_other_line_end_is_refused_with_2() {
    let sheet = sheet_of(&p2().with_loading(16));
    for place in [32, 81, 130, 179, 228] {
        assert_eq!(sheet[place], b'\n');
        for byte in (0..=255).filter(|&byte| byte != b'\n') {
            let mut damaged = sheet.clone();
            damaged[place] = byte;
            assert_eq!(number(&damaged), 2, "byte {place} is {byte}");
        }
    }
}

#[test]
fn bytes_after_those_kept_change_no_answer() {
    let rows = vec![row([0, 1, 64, 1]); 64];
    let longest = write_sheet(64, 1, 1, 0, &rows);
    assert_eq!(longest.len() + 1, KEPT);
    assert_eq!(number(&longest), 0);
    assert!(planning_program(&longest).starts_with(b"       0      64\n"));
    assert_eq!(planning_program(&longest).len(), 17 + 64 * 25);

    let mut random = Random::seeded(13);
    let mut seen = [0; 10];
    for _ in 0..300 {
        let count = random.one_of(&[0, 1, 63, 64, 65]);
        let mut input = write_sheet(count, 1, 1, random.between(0, 17), &rows);
        let length = random.between(KEPT as u32, 3 * KEPT as u32) as usize;
        while input.len() < length {
            input.push(random.one_of(b" 019\n"));
        }
        if random.once_in(3) {
            let place = random.between(0, 32) as usize;
            input[place] = random.one_of(b" 0x\n");
        }
        assert_eq!(read_sheet(&input), read_sheet(&input[..KEPT]));
        let own = number(&input);
        assert_eq!(planning_program(&input), write_line(&[own, 0]));
        seen[own as usize] += 1;
    }
    assert_eq!(seen[0], 0);
    assert!(seen[1] > 20 && seen[2] > 20 && seen[3] > 20, "{seen:?}");
}

/// Writes an accepted table into just enough bytes, and reads it again (rules
/// 15.2 and 15.6).
fn written(table: &Table) -> Vec<u8> {
    let mut lent = rubbish(33 + 49 * table.n as usize);
    assert_eq!(write_back(table, &mut lent), (0, lent.len() as u32));
    assert_eq!(read_sheet(&lent), (0, *table));
    lent
}

/// Where a number gets a digit more: 0, 1, 9, 10, 99, 100 and so on up to
/// 1,000,000.
fn figures_of_every_length() -> Vec<u32> {
    let powers = (0..=6).map(|digits| 10u32.pow(digits));
    powers.flat_map(|power| [power - 1, power]).collect()
}

/// Right-justified in eight places, as Rust's own formatting has it.
#[test]
fn a_number_is_written_as_formatting_gives_it() {
    let near_powers = (0..8).flat_map(|power| {
        let ten = 10u32.pow(power);
        [ten - 1, ten, ten + 1, 9 * ten + 9]
    });
    let spread = (0..100_000_000).step_by(9_973);
    for number in (0..200_000).chain(spread).chain(near_powers) {
        let text = format!("{number:>8}");
        assert_eq!(write_field(number).as_slice(), text.as_bytes());
    }
}

#[test]
fn figures_of_every_length_come_back() {
    let figures = figures_of_every_length();
    let with_each = |&level: &u32| figures.iter().map(move |promised| (level, promised));
    let mut accepted = 0;
    for &release in &figures {
        for &work in &figures {
            for &deadline in &figures {
                for (level, &promised) in [0, 1].iter().flat_map(with_each) {
                    let loading = accepted % (MOST_LOADING + 1);
                    let figures = [release, work, deadline, level, promised];
                    let one = table(10, 9, &[figures]).with_loading(loading);
                    if check_table(&one) == 0 {
                        let sheet = sheet_of(&one);
                        assert_eq!(written(&one), sheet);
                        accepted += 1;
                    }
                }
            }
        }
    }
    // A release below the deadline, a work above 0; for a HI row a promise of 0, for a LO
    // row one up to its work, which is the k-th figure, k from 2 to 14.
    let promises = 13 + (2..=14).sum::<u32>();
    assert_eq!(accepted, 14 * 13 / 2 * promises);
    for normal in 1..=1_000 {
        for degraded in [1, 9, 10, 99, 100, 999, normal] {
            let paced = table(normal, degraded.min(normal), &[[0, 1, 1, 0]]);
            assert_eq!(written(&paced), sheet_of(&paced));
        }
    }
    for loading in 0..=MOST_LOADING {
        let loads = p1().with_loading(loading);
        assert_eq!(written(&loads), sheet_of(&loads));
        let first = format!("       4       5       2{loading:>8}\n");
        assert!(sheet_of(&loads).starts_with(first.as_bytes()));
    }
}

/// The sheet of P1 stands here as bytes, so that the writer is not compared
/// with itself alone.
#[test]
fn the_sheet_of_p1() {
    let sheet = concat!(
        "       4       5       2       0\n",
        "       0      20      10       1       0       0\n",
        "       5      15      10       0       0       0\n",
        "       5      11      19       1       0       0\n",
        "       0       5       5       0       0       0\n",
    );
    assert_eq!(written(&p1()), sheet.as_bytes());
    let mut promising = p1();
    promising.promised[1] = 9;
    let sheet = sheet.replace("10       0       0", "10       0       9");
    assert_eq!(written(&promising), sheet.as_bytes());
    let mut waiting = promising;
    waiting.follows[2] = 1;
    let sheet = sheet.replace("19       1       0       0", "19       1       0       1");
    assert_eq!(written(&waiting), sheet.as_bytes());
}

/// Every accepted sheet among many damaged ones is the sheet of its table (rule
/// 15.7), so that no two of them are read as the same table (rule 9.4).
#[test]
fn accepted_sheets_come_back_byte_for_byte() {
    let mut random = Random::seeded(14);
    let (mut changed, mut refused) = (0, 0);
    for _ in 0..40_000 {
        let sheet = sheet_of(&table_in(&mut random, WIDE));
        let mut damaged = sheet.clone();
        for _ in 0..random.between(0, 2) {
            let place = random.between(0, sheet.len() as u32 - 1) as usize;
            damaged[place] = random.one_of(b"0123456789 \n");
        }
        match read_sheet(&damaged) {
            (0, table) => {
                assert_eq!(written(&table), damaged);
                changed += u32::from(damaged != sheet);
            }
            _ => refused += 1,
        }
    }
    println!("{changed} changed and accepted, {refused} refused");
    assert!(changed > 4_000 && refused > 10_000);
}

/// Lent bytes from none to more than the longest sheet has: 10 exactly if they
/// are fewer than the sheet has (rule 15.4), and all other bytes stay.
#[test]
fn lent_bytes_of_every_length() {
    let longest = Table::of(1, 1, 16, &[row([0, 1, 64, 1]); 64]);
    for table in [p1(), table(1, 1, &[[0, 1, 1, 0]]), longest] {
        let sheet = sheet_of(&table);
        for room in 0..=LONGEST_SHEET + 63 {
            let before = rubbish(room);
            let mut lent = before.clone();
            let answer = write_back(&table, &mut lent);
            if room < sheet.len() {
                assert_eq!((answer, lent), ((10, 0), before), "{room} bytes");
            } else {
                assert_eq!(answer, (0, sheet.len() as u32), "{room} bytes");
                assert_eq!(lent[..sheet.len()], sheet, "{room} bytes");
                assert_eq!(lent[sheet.len()..], before[sheet.len()..], "{room} bytes");
            }
        }
    }
    assert_eq!(sheet_of(&longest).len(), LONGEST_SHEET);
    assert_eq!(LONGEST_SHEET, 3_169);
}
