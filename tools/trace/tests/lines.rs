//! The words of a text: what may be left out and how it may be spaced, and what is said of
//! a line that can't be read.

use pmmu_trace::{to_bytes, to_text, Stopped};

fn bytes_of(text: &[u8]) -> Result<Vec<u8>, Stopped> {
    let mut bytes = Vec::new();
    to_bytes(text, &mut bytes).map(|()| bytes)
}

/// The text as the program writes it.
fn as_written(text: &str) -> String {
    let bytes = bytes_of(text.as_bytes()).unwrap_or_else(|why| panic!("{text:?}: {why}"));
    let mut text = Vec::new();
    to_text(&bytes[..], &mut text).expect("the bytes of a text");
    String::from_utf8(text).expect("a text")
}

/// One record's line as the program writes it.
fn line_as_written(line: &str) -> String {
    as_written(&format!("v1\n{line}\n")).lines().nth(1).expect("a record").to_string()
}

/// The bytes of one record, its length first.
fn record(line: &str) -> Vec<u8> {
    bytes_of(format!("v1\n{line}\n").as_bytes()).unwrap_or_else(|why| panic!("{line}: {why}"))[1..].to_vec()
}

/// Document 01's own bytes for its one file, and each kind by hand.
#[test]
fn bytes_by_hand() {
    let file = "v1\naccess read user data unrecorded 1234\n";
    assert_eq!(bytes_of(file.as_bytes()).expect("a trace"), [1, 0, 7, 2, 0, 0xFF, 0, 0, 0x12, 0x34]);

    let registers = "registers family=40 pmmu tc=1 crp=2,3 srp=4,5 tt0=6 tt1=7 itt0=8 itt1=9 dtt0=a dtt1=B";
    let mut expected = vec![0, 47, 1, 40, 1];
    (1..=11).for_each(|long: u8| expected.extend([0, 0, 0, long]));
    assert_eq!(record(registers), expected);

    assert_eq!(record("access read user data 12345678"), [0, 7, 2, 0x10, 0xFF, 0x12, 0x34, 0x56, 0x78]);
    assert_eq!(record("access write user data 0"), [0, 7, 2, 0x11, 0xFF, 0, 0, 0, 0]);
    assert_eq!(record("access read supervisor data 0"), [0, 7, 2, 0x1A, 0xFF, 0, 0, 0, 0]);
    assert_eq!(record("access read supervisor data cpu=user 0"), [0, 7, 2, 0x12, 0xFF, 0, 0, 0, 0]);
    assert_eq!(record("access read user instruction cpu=supervisor 0"), [0, 7, 2, 0x1C, 0xFF, 0, 0, 0, 0]);
    assert_eq!(record("access read user data override=5 0"), [0, 7, 2, 0x10, 5, 0, 0, 0, 0]);
    assert_eq!(record("pload write code=5 1"), [0, 7, 3, 5, 1, 0, 0, 0, 1]);
    assert_eq!(record("ptest read code=1 level=7 2"), [0, 8, 4, 1, 0, 7, 0, 0, 0, 2]);
    assert_eq!(record("flush all"), [0, 1, 5]);
    assert_eq!(record("flush code=4 mask=6"), [0, 3, 6, 4, 6]);
    assert_eq!(record("flush page code=4 mask=6 8"), [0, 7, 7, 4, 6, 0, 0, 0, 8]);
    assert_eq!(record("flush frame FFFFF"), [0, 5, 8, 0, 0x0F, 0xFF, 0xFF]);
    assert_eq!(record("long 1004=2002"), [0, 9, 9, 0, 0, 0x10, 4, 0, 0, 0x20, 2]);
    assert_eq!(record("range 10-1F"), [0, 9, 0x0A, 0, 0, 0, 0x10, 0, 0, 0, 0x1F]);
    assert_eq!(record("probe write supervisor instruction 3"), [0, 6, 0x0B, 0x0D, 0, 0, 0, 3]);
}

#[test]
fn spaces_comments_and_order() {
    let plain = "v1\naccess write supervisor data override=5 unrecorded 00000010\nlong 00001004=00002002\n";
    let spaced = b"\n  # \xFF\xFE any bytes in a comment\r\nv1 # version\r\n\taccess  unrecorded override=005 write supervisor data 10\n\n\
                   long 1004=2002#no space";
    let mut text = Vec::new();
    to_text(&bytes_of(spaced).expect("a trace")[..], &mut text).expect("its bytes");
    assert_eq!(String::from_utf8(text).expect("a text"), plain);
}

#[test]
fn what_is_left_out() {
    assert_eq!(line_as_written("registers tc=0 enabled crp=0,0 family=30"), "registers family=30 enabled");
    assert_eq!(line_as_written("registers family=0 srp=0,1"), "registers family=0 srp=00000000,00000001");
    assert_eq!(line_as_written("access read user data cpu=user abcdef"), "access read user data 00ABCDEF");
}

/// A text whose last line can't be read, and what is said of it.
const UNREAD: &[(&str, &str)] = &[
    ("", "line 1: there is no line 'v1'"),
    ("# a comment alone\n", "line 2: there is no line 'v1'"),
    ("flush all", "line 1: the line 'v1' comes before every record"),
    ("v2", "line 1: the line 'v1' comes before every record"),
    ("v1 now", "line 1: 'now' has no meaning here"),
    ("v1\n\nv1", "line 3: 'v1' stands once, before every record"),
    (
        "v1\nacces read user data 0",
        "line 2: there is no record 'acces': registers, access, pload, ptest, flush, long, range and probe are",
    ),
    ("v1\naccess reed user data 0", "line 2: 'read' or 'write' is expected, not 'reed'"),
    ("v1\naccess read 0", "line 2: 'user' or 'supervisor' is expected, not '0'"),
    ("v1\naccess read user", "line 2: 'data' or 'instruction' is expected, and the line ends"),
    ("v1\naccess read user data", "line 2: an address (up to eight hex digits) is expected, and the line ends"),
    ("v1\naccess read user data 0x1234", "line 2: an address (up to eight hex digits) is expected, not '0x1234'"),
    ("v1\naccess read user data 123456789", "line 2: an address (up to eight hex digits) is expected, not '123456789'"),
    ("v1\naccess read user data +1", "line 2: an address (up to eight hex digits) is expected, not '+1'"),
    ("v1\naccess read user data 1 2", "line 2: '2' has no meaning here"),
    (
        "v1\naccess read user data override=8 override=8 1",
        "line 2: an address (up to eight hex digits) is expected, not 'override=8'",
    ),
    ("v1\naccess read user data override=256 1", "line 2: 'override=' has a number from 0 to 255, not '256'"),
    ("v1\naccess read user data override= 1", "line 2: 'override=' has a number from 0 to 255, not ''"),
    ("v1\naccess read user data override=+1 1", "line 2: 'override=' has a number from 0 to 255, not '+1'"),
    (
        "v1\naccess read user data override=255 1",
        "line 2: 'override=255' is the mark for none in the bytes: leave it out",
    ),
    ("v1\naccess read user data cpu=own 1", "line 2: behind 'cpu=' 'user' or 'supervisor' is expected, not 'own'"),
    ("v1\nregisters pmmu", "line 2: 'family=' is missing: a number from 0 to 255"),
    ("v1\nregisters family=30 tc=G", "line 2: 'tc=' has up to eight hex digits, not 'G'"),
    ("v1\nregisters family=30 crp=1000", "line 2: 'crp=' has LIMIT,ADDRESS in hex, not '1000'"),
    ("v1\nregisters family=30 tc=1 tc=2", "line 2: 'tc=2' has no meaning here"),
    ("v1\npload read 0", "line 2: 'code=' is missing: a number from 0 to 255"),
    ("v1\nptest read code=1 0", "line 2: 'level=' is missing: a number from 0 to 255"),
    ("v1\nflush", "line 2: 'all', 'code=', 'page' or 'frame' is expected, and the line ends"),
    ("v1\nflush everything", "line 2: 'all', 'code=', 'page' or 'frame' is expected, not 'everything'"),
    ("v1\nflush code=1", "line 2: 'mask=' is missing: a number from 0 to 255"),
    ("v1\nflush all code=1", "line 2: 'code=1' has no meaning here"),
    ("v1\nlong 1004 2002", "line 2: ADDRESS=VALUE (each up to eight hex digits) is expected, not '1004'"),
    ("v1\nlong", "line 2: ADDRESS=VALUE is expected, and the line ends"),
    ("v1\nrange 1..2", "line 2: FIRST-LAST (each up to eight hex digits) is expected, not '1..2'"),
    ("v1\nprobe read user data cpu=user 1", "line 2: an address (up to eight hex digits) is expected, not 'cpu=user'"),
];

#[test]
fn what_is_said_of_a_line() {
    for (text, said) in UNREAD {
        match bytes_of(text.as_bytes()) {
            Err(stopped) => assert_eq!(stopped.to_string(), *said, "{text:?}"),
            Ok(_) => panic!("{text:?} was read"),
        }
    }
}

#[test]
fn what_is_no_text() {
    let said = |text: &[u8]| bytes_of(text).expect_err("no text").to_string();
    assert_eq!(said(b"v1\n\xFF\xFE all"), "line 2: it is no text");
    let long = [b"v1\n".to_vec(), vec![b' '; 5000]].concat();
    assert_eq!(said(&long), "line 2: it has more than 4096 bytes");
    let fits = [b"v1\n".to_vec(), vec![b' '; 4087], b"flush all\r\n".to_vec()].concat();
    assert_eq!(bytes_of(&fits).expect("a line of 4096 bytes"), [1, 0, 1, 5]);
}
