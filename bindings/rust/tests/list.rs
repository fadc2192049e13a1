//! The list of a tree: document 01's, each kind of range, more ranges than are kept at a time,
//! any base and any number of bus-error ranges, starts, and the refusals in their order. The
//! answers are by hand; those of the stored dumps are the original's.

mod common;

use common::LOGICAL;
use pmmu::{Family, Mapping, Page, Pmmu, Range, Refusal, Registers, Tables};
use pmmu_trace::{Line, Lines, Record};
use std::fs::{self, File};
use std::io::BufReader;
use std::path::Path;

fn tables(longs: &[u32]) -> Tables<'_> {
    Tables { longs, base: 0, ranges: &[] }
}

/// The lines of a list.
fn lines(registers: &Registers, code: u8, from: u32, tables: Tables<'_>) -> Vec<String> {
    let list = Pmmu::list_from(registers, code, from, tables).expect("no refusal");
    list.map(|range| range.to_string()).collect()
}

#[test]
fn document_01s_tree_has_one_range() {
    let longs = common::longs(&[]);
    let page = Page { physical: 0x0005_5000, write_protected: false, supervisor: false };
    let only = Mapping { first: 0x0204_1000, consumed: 20, page: Some(page) };
    for code in [1, 2, 5, 6] {
        let list: Vec<Mapping> = Pmmu::list(&common::registers(), code, tables(&longs)).expect("no refusal").collect();
        assert_eq!(list, [only]);
    }
    assert_eq!(only.last(), 0x0204_1FFF);
    for (from, count) in [(0x0204_1000, 1), (LOGICAL, 1), (0x0204_1FFF, 1), (0x0204_2000, 0), (u32::MAX, 0)] {
        assert_eq!(lines(&common::registers(), 1, from, tables(&longs)).len(), count, "from {from:08X}");
    }
}

#[test]
fn a_list_is_over_once() {
    let longs = common::longs(&[]);
    let mut list = Pmmu::list(&common::registers(), 1, tables(&longs)).expect("no refusal");
    assert!(list.next().is_some());
    assert_eq!([list.next(), list.next()], [None, None]);
}

#[test]
fn every_kind_is_told() {
    // a long root table: a page (1004 has its field), WP, S, both, and one whose second long can't be fetched
    let registers = Registers { tc: 0x80F0_8000, crp_limit: 0x8000_0003, ..common::registers() };
    let longs = common::longs(&[(0x1000, 1), (0x1008, 5), (0x1010, 0x101), (0x1018, 0x105), (0x1020, 1)]);
    let ranges = [Range { first: 0x1024, last: 0x1024 }];
    let list = lines(&registers, 1, 0, Tables { longs: &longs, base: 0, ranges: &ranges });
    let told = [
        "00000000-00FFFFFF 00002000 -",
        "01000000-01FFFFFF 00000000 W",
        "02000000-02FFFFFF 00000000 S",
        "03000000-03FFFFFF 00000000 WS",
        "04000000-04FFFFFF unfetchable",
    ];
    assert_eq!(list, told);
    // a page in the function-code level: every address
    let registers = Registers { tc: 0x81F0_8000, ..common::registers() };
    assert_eq!(lines(&registers, 2, 5, tables(&common::longs(&[(0x1008, 0x7701)]))), ["00000000-FFFFFFFF 00007700 -"]);
    // a sum of 32: one address
    let registers = Registers { tc: 0x8000_8888, ..common::registers() };
    let single = [(0x1000, 0x1402), (0x1004, 0), (0x1400, 0x1802), (0x1800, 0x1C02), (0x1C04, 0xFFFF_FF05)];
    assert_eq!(lines(&registers, 1, 0, tables(&common::longs(&single))), ["00000001-00000001 FFFFFF00 W"]);
}

#[test]
fn a_list_goes_on_where_it_stopped() {
    // 1,536 pages in 24 tables, behind each other; a start in each of them
    let mut longs = common::longs(&[(0x3004, 0)]);
    for page in 0..1536 {
        longs[0x2000 / 4 + page / 64] = 0x3002 + 0x100 * (page as u32 / 64);
        longs[0x3000 / 4 + page] = 0x0010_0001 + (page as u32) * 0x1000;
    }
    for page in 0..1536_u32 {
        let from = 0x0200_0000 + page * 0x1000 + page;
        let list = Pmmu::list_from(&common::registers(), 1, from, tables(&longs)).expect("no refusal");
        let firsts: Vec<u32> = list.map(|range| range.first).collect();
        let wanted: Vec<u32> = (page..1536).map(|page| 0x0200_0000 + page * 0x1000).collect();
        assert_eq!(firsts, wanted, "from {from:08X}");
    }
}

#[test]
fn any_base_and_any_ranges() {
    // document 01's tree at the top of the address space, and forty ranges beside its longs
    let (base, moved) = (0xFFFF_8000, |address: u32| address + 0xFFFF_8000);
    let mut longs = common::longs(&[]);
    longs[0x1004 / 4] = moved(0x2002);
    longs[0x2004 / 4] = moved(0x3002);
    let registers = Registers { crp_address: moved(0x1000), ..common::registers() };
    let mut ranges: Vec<Range> =
        (0..40).map(|n| Range { first: moved(0x4000 + 8 * n), last: moved(0x4003 + 8 * n) }).collect();
    let page = "02041000-02041FFF 00055000 -";
    assert_eq!(lines(&registers, 1, 0, Tables { longs: &longs, base, ranges: &ranges }), [page]);
    ranges.push(Range { first: moved(0x3007), last: moved(0x3008) });
    let lost = ["02041000-02041FFF unfetchable", "02042000-02042FFF unfetchable"];
    assert_eq!(lines(&registers, 1, 0, Tables { longs: &longs, base, ranges: &ranges }), lost);
}

#[test]
fn refusals_come_in_their_order() {
    let longs = common::longs(&[]);
    let crossed = [Range { first: 1, last: 0 }];
    let refused = |family, code, base, ranges: &[Range]| {
        let registers = Registers { family, tc: 0x80C1_7760, ..common::registers() };
        Pmmu::list(&registers, code, Tables { longs: &longs, base, ranges }).expect_err("a refusal")
    };
    assert_eq!(refused(Family(50), 8, 2, &crossed), Refusal::Family);
    assert_eq!(refused(Family::M68040, 8, 2, &crossed), Refusal::Code);
    assert_eq!(refused(Family::M68040, 1, 2, &crossed), Refusal::Base);
    assert_eq!(refused(Family::M68040, 1, 0, &crossed), Refusal::Range);
    assert_eq!(refused(Family::M68040, 1, 0, &[]), Refusal::Tree);
    assert_eq!(refused(Family::M68030, 1, 0, &[]), Refusal::Tree);
    for code in 0..8 {
        let list = Pmmu::list(&common::registers(), code, tables(&longs));
        assert_eq!(list.err(), (![1, 2, 5, 6].contains(&code)).then_some(Refusal::Tree), "code {code}");
    }
    let type_1 = Registers { crp_limit: 0x8000_0001, ..common::registers() };
    assert_eq!(Pmmu::list(&type_1, 1, tables(&longs)).expect_err("its root").number(), 9);
}

/// A dump of `samples/lists`: its registers, longs and ranges.
fn dump(file: &Path) -> (Registers, Vec<u32>, Vec<Range>) {
    let (mut registers, mut longs, mut ranges) = (Registers::default(), vec![0; 8192], Vec::new());
    registers.family = Family::M68030;
    let mut read = Lines::new(BufReader::new(File::open(file).expect("a dump")));
    while let Some(line) = read.next_line().expect("a line") {
        match line {
            Line::Record(Record::Registers(r)) if [30, 40, 60].contains(&r.family) => {
                let [tc, crp_limit, crp_address, srp_limit, srp_address, ..] = r.longs;
                let family = Family(r.family.into());
                registers =
                    Registers { family, tc, crp_limit, crp_address, srp_limit, srp_address, ..Registers::default() };
            }
            Line::Record(Record::Store { address, value }) if address % 4 == 0 => {
                if let Some(long) = longs.get_mut(address as usize / 4) {
                    *long = value;
                }
            }
            Line::Record(Record::Range { first, last }) if first <= last => ranges.push(Range { first, last }),
            _ => {}
        }
    }
    (registers, longs, ranges)
}

#[test]
fn the_stored_dumps() {
    let folder = Path::new(env!("CARGO_MANIFEST_DIR")).join("../../samples/lists");
    let files = fs::read_dir(folder).expect("the samples").map(|entry| entry.expect("an entry").path());
    let texts: Vec<_> = files.filter(|file| file.extension().is_some_and(|kind| kind == "text")).collect();
    assert!(texts.len() >= 20);
    for text in texts {
        let (registers, longs, ranges) = dump(&text);
        let expected = fs::read_to_string(text.with_extension("expected")).expect("its lists");
        for wanted in expected.split("list ").skip(1) {
            let mut wanted = wanted.lines();
            let mut asked = wanted.next().expect("what is asked").split(' ');
            let code = asked.next().and_then(|code| code.parse().ok()).expect("a code");
            let from = asked.next().map_or(0, |from| u32::from_str_radix(from, 16).expect("an address"));
            let list = Pmmu::list_from(&registers, code, from, Tables { longs: &longs, base: 0, ranges: &ranges });
            let lines: Vec<String> = match list {
                Ok(list) => list.map(|range| range.to_string()).collect(),
                Err(refusal) => vec![format!("R {}", refusal.number())],
            };
            let wanted: Vec<&str> = wanted.filter(|line| !line.ends_with(" bytes mapped")).collect();
            assert_eq!(lines, wanted, "{}, code {code}, from {from:08X}", text.display());
        }
    }
}
