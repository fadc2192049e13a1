use pmmu::{Access, Error, Family, Pmmu, Registers, Tables};

fn main() -> Result<(), Error> {
    let registers = Registers {
        family: Family::M68030,
        present: true,
        enabled: true,
        tc: 0x80C0_7760,
        crp_limit: 0x8000_0002,
        crp_address: 0x1000,
        ..Registers::default()
    };
    let mut longs = vec![0; 0x800]; // table memory from address 0 on
    longs[0x1004 / 4] = 0x0040_0001; // the root table's second entry: 32 MiB from 00400000 on
    let access = Access::read(0x0200_1ABC);

    let mut warm = Pmmu::new(); // both caches, empty
    let found = warm.translate(&registers, &access, Tables { longs: &longs, base: 0, ranges: &[] })?;
    println!("{:08X}, {} long asked for", found.address, found.count);

    let mut worker = warm.clone(); // a fork has the warm caches, and sets a guard of its own
    longs[0x1004 / 4] = 0;
    worker.flush_page(0, 0, access.address)?;
    match worker.translate(&registers, &access, Tables { longs: &longs, base: 0, ranges: &[] }) {
        Err(Error::Fault(fault)) => println!("the guard: {fault}"),
        other => println!("missed: {other:?}"),
    }
    Ok(())
}
