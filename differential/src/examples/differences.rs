//! The smallest inputs of docs/DIFFERENCES.md, in its order, with document 01's answers.

use super::{
    Example, LOGICAL, NONE, RECORD, Record, SUPERVISOR, example, family_40, on_base, read, store, test, under, with,
    write,
};
use crate::trace::Registers;

fn with_override(override_code: u8) -> Record {
    Record::Access { flags: RECORD, override_code, address: LOGICAL }
}

/// The 68040's tree: family 40, TC 8000, and these stores.
fn on_40(stores: &[(u32, u32)], then: &[Record]) -> Vec<Record> {
    under(with(family_40(0x8000)), stores, then)
}

/// The same under registers that are changed once more.
fn changed_40(change: impl FnOnce(&mut Registers), stores: &[(u32, u32)], then: &[Record]) -> Vec<Record> {
    let registers = with(|r| {
        family_40(0x8000)(r);
        change(r);
    });
    under(registers, stores, then)
}

/// Where the MC68030 manual and document 01 differ.
fn of_68030() -> Vec<Example> {
    let twice = |between: Record| [read(LOGICAL), between, read(LOGICAL)];
    vec![
        example("low_address_bits", on_base(&[(0x3004, 0x55701)], &[read(LOGICAL)]), &["A 000561BC 3"]),
        example(
            "override_0",
            under(with(|r| r.tc = 0x81C0_7760), &[(0x1000, 0)], &[with_override(0)]),
            &["A 00056ABC 3"],
        ),
        example("override_7", on_base(&[], &[with_override(7)]), &["A 00055ABC 3"]),
        example("no_limits", under(with(|r| r.crp_limit = 2), &[], &[read(LOGICAL)]), &["A 00055ABC 3"]),
        example(
            "root_type_1",
            under(with(|r| r.crp_limit = 0x8000_0001), &[], &[read(LOGICAL)]),
            &["F 0 3 02041ABC 0"],
        ),
        example(
            "sum_31",
            under(with(|r| r.tc = 0x80C0_7750), &[(0x3000, 0x55001)], &[read(LOGICAL)]),
            &["A 00056ABC 3"],
        ),
        example(
            "indirect_is_no_level",
            on_base(&[(0x3004, 0x4003), (0x4000, 1), (0x4004, 0x66000)], &[test(7), test(3)]),
            &["T 0003 00004000 5", "T 0003 00004000 5"],
        ),
        example(
            "bad_target_counts_w",
            on_base(&[(0x3004, 0x4003), (0x4000, 4), (0x4004, 0x66000)], &[test(7)]),
            &["T 0C03 00004000 5"],
        ),
        example("ptest_without_m", on_base(&[(0x3004, 0x55011)], &[test(7)]), &["T 0003 00003004 3"]),
        example(
            "bus_error_of_the_root",
            under(with(|r| r.crp_address = 0x9000_0000), &[], &[test(7), read(LOGICAL)]),
            &["T 8000 90000004 1", "F 3 6 90000004 1"],
        ),
        example("level_0", on_base(&[], &[test(0)]), &["T 0000 00000000 0"]),
        example(
            "faults_are_not_kept",
            on_base(&[(0x3004, 0)], &twice(store(0x3004, 0x55001))),
            &["F 2 3 02041ABC 3", "A 00055ABC 3"],
        ),
        example(
            "write_on_a_cached_wp_page",
            on_base(&[(0x2004, 0x3006)], &[read(LOGICAL), write(LOGICAL)]),
            &["A 00055ABC 3", "F 2 4 02041ABC 3"],
        ),
        example("not_enabled", under(with(|r| r.enabled = false), &[], &[read(LOGICAL)]), &["A 02041ABC 0"]),
        example("registers_flush_nothing", on_base(&[], &twice(with(|_| ()))), &["A 00055ABC 3", "A 00055ABC 0"]),
        example("cache_inhibit", on_base(&[(0x3004, 0x55041)], &[read(LOGICAL)]), &["A 00055ABC 3"]),
        example(
            "pload_of_a_transparent_address",
            under(with(|r| r.tt0 = 0x0200_8110), &[], &[Record::Load { code: 1, write: 0, address: LOGICAL }]),
            &["L 0"],
        ),
        example(
            "initial_shift_in_the_tag",
            under(
                with(|r| r.tc = 0x80C4_7700),
                &[(0x1000, 0x0010_0001)],
                &[read(0), read(0xF000_0000), read(0), read(0xF000_0000)],
            ),
            &["A 00100000 1", "A 00100000 1", "A 00100000 0", "A 00100000 0"],
        ),
        example("failed_fetch_address", on_base(&[(0x1004, 0x9000_0002)], &[test(7)]), &["T 8001 90000004 2"]),
    ]
}

/// Where the M68040 manual and document 01 differ.
fn of_68040() -> Vec<Example> {
    let as_supervisor = Record::Access { flags: RECORD | SUPERVISOR, override_code: NONE, address: LOGICAL };
    vec![
        example(
            "direct_mapped",
            on_40(&[(0x1000, 0x2002), (0x2000, 0x3002), (0x3000, 0x55001)], &[read(0), read(0x4_0000), read(0)]),
            &["A 00055000 3", "A 00055000 3", "A 00055000 3"],
        ),
        example("target_of_type_2", on_40(&[(0x3004, 0x4002), (0x4000, 0x55002)], &[read(LOGICAL)]), &["A 00055ABC 4"]),
        example("override_2", changed_40(|r| r.itt0 = 0x0200_C000, &[], &[with_override(2)]), &["A 02041ABC 0"]),
        example("ttr_w", changed_40(|r| r.dtt0 = 0x0200_C004, &[], &[write(LOGICAL)]), &["A 02041ABC 0"]),
        example(
            "flush_of_either_privilege",
            changed_40(
                |r| r.srp_address = 0x1000,
                &[],
                &[as_supervisor.clone(), Record::FlushFrame { frame: 0x2041 }, as_supervisor],
            ),
            &["A 00055ABC 3", "A 00055ABC 3"],
        ),
        example(
            "global_bit",
            on_40(&[(0x3004, 0x55401)], &[read(LOGICAL), Record::FlushAll, read(LOGICAL)]),
            &["A 00055ABC 3", "A 00055ABC 3"],
        ),
        example(
            "faults_are_not_kept_040",
            on_40(&[(0x3004, 0)], &[read(LOGICAL), store(0x3004, 0x55001), read(LOGICAL)]),
            &["F 2 3 02041ABC 3", "A 00055ABC 3"],
        ),
        example(
            "write_on_a_cached_w_page",
            on_40(&[(0x3004, 0x55005)], &[read(LOGICAL), write(LOGICAL)]),
            &["A 00055ABC 3", "F 2 4 02041ABC 3"],
        ),
        example("ptest_040", on_40(&[], &[test(7)]), &["R 6"]),
        example("enable_bit_is_not_read", under(with(family_40(0)), &[], &[read(LOGICAL)]), &["A 00055ABC 3"]),
        example(
            "other_page_size",
            on_40(&[(0x1000, 0x1003)], &[read(0), with(family_40(0xC000)), read(0), Record::FlushAll, read(0)]),
            &["A 00001000 3", "A 00001000 0", "A 00000000 3"],
        ),
        example(
            "bus_error_of_the_root_040",
            changed_40(|r| r.crp_address = 0x9000_0000, &[], &[read(LOGICAL)]),
            &["F 3 6 90000004 1"],
        ),
        example("ptest_060", changed_40(|r| r.family = 60, &[], &[test(7)]), &["R 6"]),
        example(
            "ttr_060",
            changed_40(
                |r| {
                    r.family = 60;
                    r.dtt0 = 0x0200_C000;
                },
                &[],
                &[read(LOGICAL)],
            ),
            &["A 00055ABC 3"],
        ),
    ]
}

pub fn differences() -> Vec<Example> {
    let mut all = of_68030();
    all.extend(of_68040());
    all
}
