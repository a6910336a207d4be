//! The record file, the listing and the host entry.

mod common;

use common::{flat, set_day, set_mark, set_reading, worked_file, worked_table, WORKED};
use reference::listing::rounded;
use reference::record::read;
use reference::table::MISSING;
use reference::writer::{
    day_record as dy, day_records, event_record as ev, head_record as pf, move_record as mv,
};
use reference::{gen_cuts, host, listing, Refusal, Table};

fn days(table: &Table) -> Vec<u8> {
    day_records(table).concat()
}

fn listed(file: &[u8]) -> String {
    String::from_utf8(listing(file)).unwrap()
}

fn refused_at(file: &[u8]) -> Option<u64> {
    match read(file) {
        Err(Refusal::File { offset }) => Some(offset),
        Err(other) => panic!("{other:?}"),
        Ok(_) => None,
    }
}

#[test]
fn worked_listing() {
    assert_eq!(listed(&worked_file()), WORKED);
}

#[test]
fn contents() {
    let contents = read(&worked_file()).unwrap();
    assert_eq!((contents.p, contents.portfolio), (6900, 77));
    assert_eq!(contents.table, worked_table());
    assert_eq!(contents.events.len(), 2);
    assert_eq!(
        contents.events[1],
        common::request(6900, 6966, 152, 156, 148)
    );
}

#[test]
fn refusal_lines() {
    let mut table = worked_table();
    let list = |table: &Table, event: &[u8]| {
        let file = [&pf(6949, 1), &days(table)[..], event].concat();
        let lines = listed(&file);
        let (_, rest) = lines.split_once('\n').unwrap();
        rest.to_string()
    };
    let ask = ev(6972, 152, 156, 148);
    assert_eq!(list(&table, &ev(6972, 0, 255, 9)), "6972 0 255 refused 4\n");
    assert_eq!(
        list(&table, &ev(6973, 152, 156, 9)),
        "6973 152 156 refused 5\n"
    );
    set_mark(&mut table, 6958, 2);
    set_mark(&mut table, 6965, 2);
    assert_eq!(
        list(&table, &ev(6952, 152, 156, 148)),
        "6952 152 156 refused 9 0 0\n"
    );
    set_mark(&mut table, 6951, 1);
    set_mark(&mut table, 6965, 4);
    assert_eq!(list(&table, &ask), "6972 152 156 refused 2 14\n");
    set_mark(&mut table, 6965, 1);
    for held in [6971, 6972] {
        set_day(&mut table, held, MISSING);
    }
    assert_eq!(list(&table, &ask), "6972 152 156 refused 10 21\n");
    set_reading(&mut table, 6952, 3, MISSING - 1);
    assert_eq!(list(&table, &ask), "6972 152 156 refused 3 99\n");
}

#[test]
fn negative_adjustment_is_listed() {
    let mut table = worked_table();
    set_day(&mut table, 6972, 1000);
    let file = [pf(6900, 77), days(&table), ev(6972, 152, 153, 148)].concat();
    let expected = "\
portfolio 77 from 6900 held 6951 22
6972 152 153 days 2 6951 6965 reach 21 over 24 adj -6000
152 24084 1004
";
    assert_eq!(listed(&file), expected);
}

#[test]
fn halves_up() {
    assert_eq!(rounded(0, 24), 0);
    assert_eq!(rounded(11, 24), 0);
    assert_eq!(rounded(12, 24), 1);
    assert_eq!(rounded(35, 24), 1);
    assert_eq!(rounded(36, 24), 2);
    assert_eq!(rounded(29, 60), 0);
    assert_eq!(rounded(30, 60), 1);
    assert_eq!(rounded(1_200_000_000, 60), 20_000_000);
}

#[test]
fn no_days_and_no_events() {
    assert_eq!(listed(&pf(6900, 77)), "portfolio 77 from 6900 held 0 0\n");
    let file = [pf(6900, 77), ev(6972, 152, 156, 148)].concat();
    let expected = "portfolio 77 from 6900 held 0 0\n6972 152 156 refused 1\n";
    assert_eq!(listed(&file), expected);
    let file = [pf(65_535, u32::MAX), days(&worked_table())].concat();
    let expected = "portfolio 4294967295 from 65535 held 6951 22\n";
    assert_eq!(listed(&file), expected);
}

#[test]
fn refused_files() {
    assert_eq!(listed(b""), "file refused 0\n");
    assert_eq!(listed(b"PF"), "file refused 0\n");
    assert_eq!(listed(&ev(6972, 152, 156, 148)), "file refused 0\n");
    let file = worked_file();
    assert_eq!(listed(&file[..file.len() - 1]), "file refused 8596\n");
    let twice = [pf(6900, 77), pf(6900, 77)].concat();
    assert_eq!(listed(&twice), "file refused 8\n");
}

/// PF at 0, two MV at 8 and 14, two DY at 20 and 410, two EV at 800 and 808, the
/// end at 816.
#[test]
fn every_cut() {
    let starts = [0, 8, 14, 20, 410, 800, 808, 816];
    for cut in gen_cuts() {
        let start = starts.iter().rev().find(|&&start| start <= cut.len());
        let whole = cut.len() > 7 && start == Some(&cut.len());
        let expected = (!whole).then(|| *start.unwrap() as u64);
        assert_eq!(refused_at(&cut), expected, "{}", cut.len());
    }
    assert_eq!(gen_cuts().len(), 817);
}

#[test]
fn most_days() {
    let file = |h: u32| {
        [
            pf(0, 0),
            days(&flat(6951, 6950 + h, 1)),
            ev(6951, 96, 97, 12),
        ]
        .concat()
    };
    assert_eq!(refused_at(&file(128)), None);
    assert_eq!(refused_at(&file(129)), Some(8 + 128 * 390));
}

/// "In a file a seventeenth `MV` is 11 at its start".
#[test]
fn most_moves() {
    let file = |count| {
        [
            pf(0, 0),
            mv(8887, 8893).repeat(count),
            days(&flat(6951, 6951, 1)),
            ev(6951, 96, 97, 12),
        ]
        .concat()
    };
    for count in [0, 1, 15, 16] {
        assert_eq!(refused_at(&file(count)), None);
        let contents = read(&file(count)).unwrap();
        assert_eq!(contents.moves, [8887, 8893].repeat(count));
    }
    for count in [17, 18, 64] {
        assert_eq!(refused_at(&file(count)), Some(8 + 16 * 6));
    }
}

/// The file carries any two numbers; the call refuses them, 14 at each event.
#[test]
fn moves_of_a_file() {
    let file =
        |moves: &[u8], event: &[u8]| [&pf(6900, 77), moves, &days(&worked_table()), event].concat();
    let ask = [ev(6972, 152, 156, 148), ev(6966, 152, 156, 148)].concat();
    let head = "portfolio 77 from 6900 held 6951 22\n";
    for bad in [
        mv(65_535, 65_535),
        mv(6941, 6951),
        mv(6940, 36_525),
        mv(36_525, 0),
    ] {
        assert_eq!(refused_at(&file(&bad, &ask)), None);
        let expected = format!("{head}6972 152 156 refused 14\n6966 152 156 refused 14\n");
        assert_eq!(listed(&file(&bad, &ask)), expected);
        assert_eq!(listed(&file(&bad, &[])), head);
    }
    let nothing = file(&[mv(6940, 6940), mv(0, 36_524)].concat(), &ask);
    assert_eq!(read(&nothing).unwrap().moves, [6940, 6940, 0, 36_524]);
    assert_eq!(listed(&nothing), WORKED);
    let moved = file(&mv(6940, 6965), &ask);
    let quarters = [152, 153, 154, 155]
        .map(|t| format!("{t} 24000 1000\n"))
        .concat();
    let expected = format!(
        "{head}6972 152 156 refused 8 42\n\
         6966 152 156 days 2 6965 6959 reach 14 over 24 adj -2400\n{quarters}"
    );
    assert_eq!(listed(&moved), expected);
}

/// With no DY the list stands there all the same, and 1 goes before 14.
#[test]
fn moves_and_no_days() {
    for moves in [mv(8887, 8893), mv(8888, 8893)] {
        let file = [pf(6900, 77), moves, ev(6972, 152, 156, 148)].concat();
        let expected = "portfolio 77 from 6900 held 0 0\n6972 152 156 refused 1\n";
        assert_eq!(listed(&file), expected);
    }
}

#[test]
fn most_events() {
    let file = |count| [pf(0, 0), ev(1, 2, 3, 4).repeat(count)].concat();
    assert_eq!(refused_at(&file(64)), None);
    assert_eq!(refused_at(&file(65)), Some(8 + 64 * 8));
}

#[test]
fn consecutive_days() {
    let file = |first, second| [pf(0, 0), dy(first, 0, &[1; 96]), dy(second, 0, &[1; 96])].concat();
    assert_eq!(refused_at(&file(6951, 6952)), None);
    assert_eq!(refused_at(&file(6951, 6951)), Some(398));
    assert_eq!(refused_at(&file(6951, 6953)), Some(398));
    assert_eq!(refused_at(&file(6951, 6950)), Some(398));
    assert_eq!(refused_at(&file(65_534, 65_535)), None);
    assert_eq!(refused_at(&file(65_535, 0)), Some(398));
}

#[test]
fn zero_bytes_and_marks() {
    let whole = [
        pf(0, 0),
        dy(6951, 0, &[1; 96]),
        dy(6952, 0, &[1; 96]),
        ev(6951, 96, 97, 12),
    ]
    .concat();
    let altered = |at: usize, byte: u8| {
        let mut file = whole.clone();
        file[at] = byte;
        refused_at(&file)
    };
    assert_eq!(refused_at(&whole), None);
    assert_eq!(altered(0, b'p'), Some(0));
    assert_eq!(altered(1, b'f'), Some(0));
    assert_eq!(altered(8 + 5, 1), Some(8));
    assert_eq!(altered(398, b'E'), Some(398));
    assert_eq!(altered(398 + 5, 255), Some(398));
    assert_eq!(altered(788 + 1, b'Y'), Some(788));
    assert_eq!(altered(8 + 4, 255), None);
    assert_eq!(altered(8 + 6, 255), None);
    assert_eq!(altered(788 + 6, 255), None);
    assert_eq!(altered(788 + 7, 1), None);
    assert_eq!(altered(788 + 7, 255), None);
}

#[test]
fn order_of_kinds() {
    let (head, day) = (pf(0, 0), dy(6951, 0, &[1; 96]));
    let event = ev(6951, 96, 97, 12);
    let next = dy(6952, 0, &[1; 96]);
    let file = |parts: &[&Vec<u8>]| {
        let file: Vec<u8> = parts.iter().flat_map(|part| part.iter().copied()).collect();
        refused_at(&file)
    };
    assert_eq!(file(&[&head, &day, &next, &event, &event]), None);
    assert_eq!(file(&[&day, &head, &event]), Some(0));
    assert_eq!(file(&[&head, &event, &day]), Some(16));
    assert_eq!(file(&[&head, &day, &event, &next]), Some(406));
    assert_eq!(file(&[&head, &day, &head]), Some(398));
    let moved = mv(8887, 8893);
    assert_eq!(file(&[&head, &moved, &moved, &day, &event]), None);
    assert_eq!(file(&[&head, &moved, &event]), None);
    assert_eq!(file(&[&head, &moved]), None);
    assert_eq!(file(&[&moved, &head, &day, &event]), Some(0));
    assert_eq!(file(&[&head, &day, &moved, &event]), Some(398));
    assert_eq!(file(&[&head, &day, &moved, &next]), Some(398));
    assert_eq!(file(&[&head, &moved, &day, &event, &moved]), Some(412));
    assert_eq!(file(&[&head, &event, &moved]), Some(16));
    assert_eq!(file(&[&head, &moved, &head]), Some(14));
}

#[test]
fn host_entry() {
    let file = worked_file();
    let mut out = [0xA5; 20];
    assert_eq!(host(&file, 0, &mut out), 0);
    let words = [30348u32, 30264, 30264, 30264]
        .map(u32::to_le_bytes)
        .concat();
    assert_eq!(out[..16], words);
    assert_eq!(out[16..], [0xA5; 4]);
}

#[test]
fn host_refusals() {
    let file = worked_file();
    let refused = |file: &[u8], place, room: usize| {
        let mut out = vec![0xA5; room];
        let number = host(file, place, &mut out);
        assert!(number == 0 || out == vec![0xA5; room]);
        number
    };
    assert_eq!(refused(&file, 0, 16), 0);
    assert_eq!(refused(&file, 0, 15), 7);
    assert_eq!(refused(&file, 0, 0), 7);
    assert_eq!(refused(&file, 1, 16), 8);
    assert_eq!(refused(&file, 1, 15), 7);
    assert_eq!(refused(&file, 2, 16), 12);
    assert_eq!(refused(&file, usize::MAX, 0), 12);
    assert_eq!(refused(&file[1..], 9, 0), 11);
    assert_eq!(refused(&pf(0, 0), 0, 16), 12);
    assert_eq!(refused(&[pf(0, 0), ev(0, 0, 0, 0)].concat(), 0, 0), 1);
}
