//! What a host logs, played: for random calls the player's lines are those of the
//! library's answers.

use pmmu::trace::{Line, Writer, DONE, END, VERSION_LINE};
use pmmu::{Access, Family, Pmmu, Range, Registers, Tables};
use std::fs::{self, File};
use std::path::{Path, PathBuf};
use std::process::{Command, Stdio};

const RECORDS: usize = 4000;
/// A player's longs and ranges.
const LONGS: usize = 8192;
const RANGES: usize = 16;
/// Where the tables of each level stand, two of each; the roots first.
const TABLES: [u32; 3] = [0x1000, 0x2000, 0x3000];

/// splitmix64
struct Random(u64);

impl Random {
    fn next(&mut self) -> u64 {
        self.0 = self.0.wrapping_add(0x9E37_79B9_7F4A_7C15);
        let mut z = self.0;
        z = (z ^ (z >> 30)).wrapping_mul(0xBF58_476D_1CE4_E5B9);
        z = (z ^ (z >> 27)).wrapping_mul(0x94D0_49BB_1331_11EB);
        z ^ (z >> 31)
    }

    fn below(&mut self, bound: u64) -> u64 {
        self.next() % bound
    }

    fn chance(&mut self, percent: u64) -> bool {
        self.below(100) < percent
    }

    /// A function code, mask or level; now and then one that is refused.
    fn code(&mut self) -> u8 {
        if self.chance(3) {
            self.next() as u8
        } else {
            self.below(8) as u8
        }
    }

    /// An address on one of few pages: four indices by two by eight.
    fn address(&mut self) -> u32 {
        (self.below(4) << 25 | self.below(2) << 18 | self.below(8) << 12 | self.below(4096)) as u32
    }

    /// The address of a table long that such an address can lead to.
    fn entry(&mut self, level: u32) -> u32 {
        TABLES[level as usize] + self.below(2) as u32 * 0x800 + self.below([4, 2, 8][level as usize]) as u32 * 4
    }

    /// 12 or 13; now and then 0, which leaves a frame that is refused.
    fn frame_shift(&mut self) -> u32 {
        [12, 12, 13, 0][self.below(4) as usize]
    }
}

/// A host, its log, and the lines that its answers make.
struct Host {
    random: Random,
    pmmu: Pmmu,
    registers: Registers,
    longs: Vec<u32>,
    ranges: Vec<Range>,
    log: Writer<Vec<u8>>,
    lines: Vec<String>,
}

impl Host {
    fn new(seed: u64) -> Self {
        Host {
            random: Random(seed),
            pmmu: Pmmu::new(),
            registers: Registers { family: Family::M68030, ..Registers::default() },
            longs: vec![0; LONGS],
            ranges: Vec::new(),
            log: Writer::new(Vec::new()).expect("memory"),
            lines: vec![VERSION_LINE.into()],
        }
    }

    fn said(&mut self, line: &str) {
        self.lines.push(line.into());
    }

    fn registers(&mut self) {
        let random = &mut self.random;
        let family = [Family::M68030, Family::M68030, Family::M68040, Family::M68060][random.below(4) as usize];
        let tc = if family == Family::M68030 { 0x80C0_7760 } else { [0x8000, 0xC000][random.below(2) as usize] };
        let limit = 0x8000_0002;
        self.registers = Registers {
            family,
            present: true,
            enabled: random.chance(95),
            tc: tc | u32::from(random.chance(30)) << 25,
            crp_limit: limit,
            crp_address: TABLES[0],
            srp_limit: limit,
            srp_address: TABLES[0] + 0x800,
            tt0: if random.chance(10) { 0x0600_8507 } else { 0 },
            dtt1: if random.chance(10) { 0x0600_C000 } else { 0 },
            ..Registers::default()
        };
        self.log.registers(&self.registers).expect("memory");
        self.said(DONE);
    }

    /// A table long: one of few in its table, that names one of two tables of the next level, or a page.
    fn store(&mut self) {
        let level = self.random.below(3) as u32;
        let address = self.random.entry(level);
        let table = |random: &mut Random| (TABLES[level as usize + 1] + random.below(2) as u32 * 0x800) | 2;
        let value = match level {
            _ if self.random.chance(10) => self.random.next() as u32,
            0 | 1 => table(&mut self.random) | u32::from(self.random.chance(10)) << 2,
            _ => (self.random.below(1 << 20) as u32) << 12 | self.random.below(8) as u32,
        };
        self.longs[address as usize / 4] = value;
        self.log.long(address, value).expect("memory");
        self.said(DONE);
    }

    /// A range elsewhere, or now and then over a part of a table long.
    fn range(&mut self) {
        let place = if self.random.chance(12) { self.random.entry(2) } else { 0x7000 };
        let first = place + self.random.below(4) as u32;
        let range = Range { first, last: first + self.random.below(2) as u32 };
        self.log.range(range).expect("memory");
        if self.ranges.len() < RANGES {
            self.ranges.push(range);
            self.said(DONE);
        } else {
            self.said("R 8");
        }
    }

    fn access(&mut self) {
        let random = &mut self.random;
        let access = Access {
            address: random.address(),
            write: random.chance(40),
            supervisor: random.chance(50),
            instruction: random.chance(30),
            own: random.chance(50),
            code: if random.chance(20) { Some(random.code()) } else { None },
            recorded: random.chance(80),
        };
        self.log.access(&access).expect("memory");
        let tables = Tables { longs: &self.longs, base: 0, ranges: &self.ranges };
        let line = self.pmmu.translate(&self.registers, &access, tables).line();
        self.said(&line);
    }

    fn load(&mut self) {
        let (code, write, address) = (self.random.code(), self.random.chance(50), self.random.address());
        self.log.load(code, write, address).expect("memory");
        let tables = Tables { longs: &self.longs, base: 0, ranges: &self.ranges };
        let line = self.pmmu.load(&self.registers, code, write, address, tables).line();
        self.said(&line);
    }

    fn test(&mut self) {
        let (code, level, address) = (self.random.code(), self.random.code(), self.random.address());
        self.log.test(code, false, level, address).expect("memory");
        let tables = Tables { longs: &self.longs, base: 0, ranges: &self.ranges };
        let line = Pmmu::test(&self.registers, code, false, level, address, tables).line();
        self.said(&line);
    }

    fn probe(&mut self) {
        let (own, instruction, write) = (self.random.chance(50), self.random.chance(30), self.random.chance(40));
        let address = self.random.address();
        self.log.probe(own, instruction, write, address).expect("memory");
        let line = self.pmmu.probe(&self.registers, own, instruction, write, address).line();
        self.said(&line);
    }

    fn flush(&mut self) {
        let (code, mask, address) = (self.random.code(), self.random.code(), self.random.address());
        let line = match self.random.below(4) {
            0 => {
                self.log.flush_all().expect("memory");
                self.pmmu.flush_all().line()
            }
            1 => {
                self.log.flush_code(code, mask).expect("memory");
                self.pmmu.flush_code(code, mask).line()
            }
            2 => {
                self.log.flush_page(code, mask, address).expect("memory");
                self.pmmu.flush_page(code, mask, address).line()
            }
            _ => {
                let frame = address >> self.random.frame_shift();
                self.log.flush_frame(frame).expect("memory");
                self.pmmu.flush_frame(frame).line()
            }
        };
        self.said(&line);
    }

    fn something(&mut self) {
        match self.random.below(100) {
            0..=3 => self.registers(),
            4..=18 => self.store(),
            19 => self.range(),
            20..=69 => self.access(),
            70..=74 => self.load(),
            75..=79 => self.test(),
            80..=94 => self.probe(),
            _ => self.flush(),
        }
    }
}

/// The player that `tools/build player` builds, or the one that PLAYER names.
fn player() -> PathBuf {
    let project = Path::new(env!("CARGO_MANIFEST_DIR")).join("../..");
    let player = std::env::var_os("PLAYER").map_or_else(|| project.join("target/bin/player"), PathBuf::from);
    assert!(player.is_file(), "there is no {}: `tools/build player` builds it", player.display());
    player
}

/// The player's lines for this trace, which is kept under a name.
fn played(name: &str, trace: &[u8]) -> Vec<String> {
    let file = Path::new(env!("CARGO_TARGET_TMPDIR")).join(name).with_extension("trace");
    fs::write(&file, trace).expect("a temporary file");
    let input = Stdio::from(File::open(&file).expect("the same file"));
    let output = Command::new(player()).stdin(input).output().expect("a player that runs");
    String::from_utf8(output.stdout).expect("lines").lines().map(String::from).collect()
}

#[test]
fn the_player_says_what_the_library_answered() {
    let mut host = Host::new(1);
    host.registers();
    (0..RECORDS).for_each(|_| host.something());
    let mut expected = host.lines;
    expected.push(END.into());
    let lines = played("host", &host.log.finish().expect("memory"));
    for (number, (line, expected)) in lines.iter().zip(&expected).enumerate() {
        assert_eq!(line, expected, "line {}", number + 1);
    }
    assert_eq!(lines.len(), expected.len());
    // Each kind of answer has come, hits among them, so that none is compared in vain.
    for start in ["A ", "F 2 3", "F 2 4", "F 3 6", "L ", "T ", "N", "R 5", "R 6", "R 8"] {
        let count = expected.iter().filter(|line| line.starts_with(start)).count();
        println!("{count} lines '{start}..'");
        assert!(count > 0, "no line '{start}..'");
    }
}

#[test]
fn tables_as_they_stand() {
    let longs = [0, 5, 0, 7];
    let ranges = [Range { first: 1, last: 2 }];
    let mut log = Writer::new(Vec::new()).expect("memory");
    assert_eq!(log.tables(Tables { longs: &longs, base: 0x100, ranges: &ranges }).expect("memory"), 3);
    let mut by_hand = Writer::new(Vec::new()).expect("memory");
    by_hand.long(0x104, 5).expect("memory");
    by_hand.long(0x10C, 7).expect("memory");
    by_hand.range(ranges[0]).expect("memory");
    assert_eq!(log.finish().expect("memory"), by_hand.finish().expect("memory"));
}

/// What has no byte of its own: a family above 255 isn't written; an override of 255 is refused all the same.
#[test]
fn numbers_without_a_byte() {
    let mut log = Writer::new(Vec::new()).expect("memory");
    let registers = Registers { family: Family(256), ..Registers::default() };
    assert_eq!(log.registers(&registers).expect_err("no byte").kind(), std::io::ErrorKind::InvalidInput);
    let access = Access { code: Some(255), ..Access::read(0) };
    log.access(&access).expect("memory");
    assert_eq!(played("override_255", &log.finish().expect("memory")), ["v1", "R 5", "end"]);
}

/// A write that fails is told.
#[test]
fn a_full_writer() {
    let mut room = [0; 4];
    let mut log = Writer::new(&mut room[..]).expect("room for the version");
    log.flush_all().expect("room for three bytes");
    assert!(log.flush_all().is_err());
}
