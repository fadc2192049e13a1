//! The smallest inputs of docs/DIFFERENCES.md, 'Mended', and what else shows each request:
//! the lines here and those of the original as it is shipped.

use super::{Example, LOGICAL, Mended, RECORD, Record, example, read, under, with, write};

/// A trace with its lines here and in the original.
fn mend(name: &'static str, records: Vec<Record>, here: &[&str], shipped: &[&str]) -> Mended {
    let told = |lines: &[&str]| -> Example { example(name, records.clone(), lines) };
    Mended { here: told(here), shipped: told(shipped) }
}

/// A read and a write on the examples' tree with this TT0; what is cached in between is flushed.
fn both_ways(tt0: u32) -> Vec<Record> {
    under(with(|r| r.tt0 = tt0), &[], &[read(LOGICAL), Record::FlushAll, write(LOGICAL)])
}

/// Request 02: the fields of TT0 and TT1.
fn tt() -> Vec<Mended> {
    let (itself, mapped) = ("A 02041ABC 0", "A 00055ABC 3");
    let by_code = |code: u8| Record::Access { flags: RECORD, override_code: code, address: LOGICAL };
    let calls = |write: u8| {
        [
            Record::Test { code: 1, write, level: 0, address: LOGICAL },
            Record::Load { code: 1, write, address: LOGICAL },
            Record::FlushAll,
            Record::Probe { flags: write, address: LOGICAL },
        ]
    };
    let every_call = |tt0: u32| under(with(|r| r.tt0 = tt0), &[], &[calls(0), calls(1)].concat());
    vec![
        mend("tt_fields", under(with(|r| r.tt0 = 0x0200_8100), &[], &[read(LOGICAL)]), &[mapped], &[itself]),
        mend("tt_both", both_ways(0x0200_8507), &[itself, itself], &[mapped, mapped]),
        mend("tt_reads", both_ways(0x0200_8207), &[itself, mapped], &[mapped, mapped]),
        mend("tt_writes", both_ways(0x0200_8007), &[mapped, itself], &[itself, itself]),
        mend(
            "tt_code_1",
            under(
                with(|r| r.tt0 = 0x0200_8110),
                &[],
                &[read(LOGICAL), write(LOGICAL), by_code(0), by_code(2), by_code(5), by_code(6)],
            ),
            &[itself, itself, mapped, mapped, mapped, mapped],
            &[itself, itself, mapped, mapped, itself, mapped],
        ),
        mend(
            "tt_reads_of_every_call",
            every_call(0x0200_8207),
            &["T 0040 00000000 0", "L 0", itself, "T 0000 00000000 0", "L 3", "N"],
            &["T 0000 00000000 0", "L 3", "N", "T 0000 00000000 0", "L 3", "N"],
        ),
        mend(
            "tt_writes_of_every_call",
            every_call(0x0200_8007),
            &["T 0000 00000000 0", "L 3", "N", "T 0040 00000000 0", "L 0", itself],
            &["T 0040 00000000 0", "L 0", itself, "T 0040 00000000 0", "L 0", itself],
        ),
    ]
}

pub fn mended() -> Vec<Mended> {
    tt()
}
