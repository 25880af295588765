//! All three programs print what the peer prints.

use compare::generate::accepted_sheet;
use compare::harness::compare;
use duties::list::{AllPairs, AllPairsPacked, Neighbours};
use duties::run;
use std::fs;
use std::path::Path;

type Program = fn(&[u8]) -> Vec<u8>;

const PROGRAMS: [Program; 3] = [run::<AllPairs>, run::<AllPairsPacked>, run::<Neighbours>];

/// Holds the texts of a sheet to the peer's, and gives it.
fn check(sheet: &[u8]) -> String {
    let right = String::from_utf8(peer::run(sheet)).unwrap();
    for program in PROGRAMS {
        assert_eq!(String::from_utf8(program(sheet)).unwrap(), right);
    }
    right
}

/// The bytes of a text of hexadecimal digits, with comments.
fn bytes(text: &str) -> Vec<u8> {
    text.lines()
        .filter_map(|line| line.split('#').next())
        .flat_map(str::split_whitespace)
        .map(|byte| u8::from_str_radix(byte, 16).unwrap())
        .collect()
}

#[test]
fn examples_and_cases() {
    let root = Path::new(env!("CARGO_MANIFEST_DIR")).join("../..");
    let mut files = 0;
    for folder in ["examples", "crates/sheet_cases/data"] {
        for file in fs::read_dir(root.join(folder)).unwrap() {
            let file = file.unwrap().path();
            if file.extension().is_some_and(|ending| ending == "hex") {
                check(&bytes(&fs::read_to_string(&file).unwrap()));
                files += 1;
            }
        }
    }
    assert!(files > 20, "{files} files");
}

#[test]
fn nothing_to_do_and_broken() {
    assert_eq!(check(&[0, 0, 0, 0]), "end 0 0\n");
    assert_eq!(check(&[0, 0, 0]), "refused 11\n");
}

/// Mapped from the last to the first, with a double, and unmapped from the middle, first and last.
#[test]
fn unmaps_and_refusals() {
    let sheet = "
        07 00
        0f ff 03 3f 02    # m0 space 15, page 1023, frame 63, read and write
        01 08 00 05 02    # m1 space 1, page 8, frame 5
        01 00 00 05 01    # m2 page 0, of the same colour, to read
        00 08 00 06 02    # m3 space 0, page 8, frame 6
        01 08 00 06 02    # m4 mapped: 7
        00 00 04 06 02    # m5 page 1024: 3
        00 01 00 05 02    # m6 page 1, of another colour
        0d 00
        02 01 08 00 03 07 00 00 00    # 0 writes 7 to frame 5
        01 01 00 00 03 00 00 00 00    # 1 finds it
        06 01 00 00 00 00 00 00 00    # 2 unmaps one in the middle
        01 01 00 00 03 00 00 00 00    # 3 not mapped: 8
        01 00 01 00 03 00 00 00 00    # 4 finds 7 after a flush
        06 00 01 00 00 00 00 00 00    # 5 unmaps the first
        06 0f ff 03 00 00 00 00 00    # 6 unmaps the last
        06 0f ff 03 00 00 00 00 00    # 7 not mapped: 8
        01 00 08 00 03 00 00 00 00    # 8 page 8 of space 0 has another frame
        01 01 08 00 03 00 00 00 00    # 9 finds 7
        01 01 08 00 40 00 00 00 00    # 10 offset 64: 6
        03 05 00 00 00 00 00 00 00    # 11 the device reads frame 5
        05 80 00 00 00 00 00 00 00    # 12 line 128: 6
    ";
    let right = "m0 0\nm1 0\nm2 0\nm3 0\nm4 7\nm5 3\nm6 0\n\
        0 0 - - -\n1 0 - - 7\n2 0 - - -\n3 8 - - -\n4 0 F5.0 - 7\n5 0 - - -\n6 0 - - -\n\
        7 8 - - -\n8 0 - - 0\n9 0 - - 7\n10 6 - - -\n11 0 - - 0\n12 6 - - -\nend 1 0\n";
    assert_eq!(check(&bytes(sheet)), right);
}

/// Parts over a dirty page, a held one and a stale one, and the refused ones.
#[test]
fn parts() {
    let sheet = "
        02 00
        00 00 00 05 02    # m0 page 0, frame 5
        00 01 00 05 02    # m1 page 1, of another colour
        0d 00
        02 00 00 00 00 07 00 00 00    # 0 writes 7 to offset 0
        07 05 01 00 3f 64 00 00 00    # 1 sends 100 to 162 to the other offsets: a flush
        01 00 00 00 00 00 00 00 00    # 2 finds 7, stale since the flush: a purge
        01 00 01 00 3f 00 00 00 00    # 3 finds 162
        07 05 3f 00 01 c8 00 00 00    # 4 sends 200 to offset 63: both colours are stale
        02 00 00 00 01 08 00 00 00    # 5 writes 8 to offset 1: a purge
        07 05 02 00 0c 64 00 00 00    # 6 sends 100 to 111 to offsets 2 to 13: a flush
        01 00 01 00 01 00 00 00 00    # 7 finds 8 through page 1, stale since 4: a purge
        01 00 01 00 0d 00 00 00 00    # 8 finds 111
        02 00 01 00 00 09 00 00 00    # 9 writes 9 to offset 0
        07 05 00 00 40 64 00 00 00    # 10 sends 100 to 163 to all: a purge
        07 05 34 00 0d 00 00 00 00    # 11 past offset 63: 13
        07 40 ff ff 00 00 00 00 00    # 12 frame 64: 4
    ";
    let right = "m0 0\nm1 0\n\
        0 0 - - -\n1 0 F5.0 - -\n2 0 P5.0 - 7\n3 0 - - 162\n4 0 - - -\n5 0 P5.0 - -\n6 0 F5.0 - -\n\
        7 0 P5.1 - 8\n8 0 - - 111\n9 0 - - -\n10 0 P5.1 - -\n11 13 - - -\n12 4 - - -\nend 2 4\n";
    assert_eq!(check(&bytes(sheet)), right);
}

/// A transfer each way that takes a while, with what is refused meanwhile and after it.
#[test]
fn transfers_that_take_a_while() {
    let sheet = "
        02 00
        00 00 00 05 02    # m0 page 0, frame 5
        00 01 00 05 01    # m1 page 1, of another colour, to read
        0f 00
        02 00 00 00 00 07 00 00 00    # 0 writes 7 to offset 0
        08 05 00 00 00 00 00 00 00    # 1 begins to read: a flush
        01 00 01 00 00 00 00 00 00    # 2 finds 7 through page 1
        0b 05 00 00 00 00 00 00 00    # 3 takes 7
        02 00 00 00 00 08 00 00 00    # 4 the device reads: 15
        0a 05 00 00 00 08 00 00 00    # 5 the wrong direction: 16
        0c 05 00 00 00 00 00 00 00    # 6 ends
        09 05 00 00 00 00 00 00 00    # 7 begins to write: both colours, held by 1 and 2, are stale
        0a 05 00 00 01 09 00 00 00    # 8 brings 9 to offset 1
        01 00 00 00 00 00 00 00 00    # 9 the device writes: 15
        02 00 01 00 00 08 00 00 00    # 10 only to read: 10
        07 05 00 00 0c 64 00 00 00    # 11 the device writes: 15
        0c 05 00 00 00 00 00 00 00    # 12 ends
        0c 05 00 00 00 00 00 00 00    # 13 ended: 16
        01 00 01 00 01 00 00 00 00    # 14 finds 9: a purge
    ";
    let right = "m0 0\nm1 0\n\
        0 0 - - -\n1 0 F5.0 - -\n2 0 - - 7\n3 0 - - 7\n4 15 - - -\n5 16 - - -\n6 0 - - -\n\
        7 0 - - -\n8 0 - - -\n9 15 - - -\n10 10 - - -\n11 15 - - -\n12 0 - - -\n13 16 - - -\n\
        14 0 P5.1 - 9\nend 1 1\n";
    assert_eq!(check(&bytes(sheet)), right);
}

/// Fetches after a write through the same colour and another, a part and a transfer that took a while, with what is
/// refused meanwhile, and lines of both caches evicted.
#[test]
fn fetches() {
    let sheet = "
        04 00
        00 00 00 05 02    # m0 page 0, frame 5
        00 08 00 05 03    # m1 page 8, of the same colour, to be fetched
        00 09 00 05 03    # m2 page 9, of another colour, to be fetched
        00 0a 00 05 04    # m3 rights 4: 5
        13 00
        0d 00 08 00 00 00 00 00 00    # 0 fetches 0
        02 00 00 00 00 07 00 00 00    # 1 writes 7 to offset 0: colour 0 is stale for instructions
        0d 00 08 00 00 00 00 00 00    # 2 finds 7 after a flush of its own colour and a purge
        02 00 00 00 01 08 00 00 00    # 3 writes 8 to offset 1
        0d 00 09 00 01 00 00 00 00    # 4 finds 8 after a flush of the other colour
        07 05 01 00 01 09 00 00 00    # 5 sends 9 to offset 1
        0d 00 09 00 01 00 00 00 00    # 6 finds 9 after a purge
        09 05 00 00 00 00 00 00 00    # 7 begins to write
        0d 00 09 00 01 00 00 00 00    # 8 the device writes: 15
        0d 00 00 00 01 00 00 00 00    # 9 not to be fetched: 17
        0c 05 00 00 00 00 00 00 00    # 10 ends
        08 05 00 00 00 00 00 00 00    # 11 begins to read
        0d 00 08 00 01 00 00 00 00    # 12 finds 9 after a purge
        0c 05 00 00 00 00 00 00 00    # 13 ends
        02 00 08 00 00 0a 00 00 00    # 14 not to be written: 10
        05 40 00 00 00 00 00 00 00    # 15 evicts the line of 12
        0d 00 08 00 00 00 00 00 00    # 16 finds 7
        0d 00 0b 00 00 00 00 00 00    # 17 not mapped: 8
        01 00 09 00 01 00 00 00 00    # 18 reads 9
    ";
    let right = "m0 0\nm1 0\nm2 0\nm3 5\n\
        0 0 - - 0\n1 0 - - -\n2 0 F5.0 I5.0 7\n3 0 - - -\n4 0 F5.0 - 8\n5 0 - - -\n6 0 I5.1 - 9\n\
        7 0 - - -\n8 15 - - -\n9 17 - - -\n10 0 - - -\n11 0 - - -\n12 0 I5.0 - 9\n13 0 - - -\n\
        14 10 - - -\n15 0 - - -\n16 0 - - 7\n17 8 - - -\n18 0 - - 9\nend 2 3\n";
    assert_eq!(check(&bytes(sheet)), right);
}

#[test]
fn large_sheets() {
    for mappings in [1, 16, 64, 256] {
        check(&accepted_sheet(1, mappings));
    }
}

#[test]
fn random_sheets() {
    for mut program in PROGRAMS {
        let result = compare(1, 2000, &mut peer::run, &mut program, |_| {});
        let tally = result.unwrap_or_else(|difference| panic!("{difference}"));
        assert!(tally.left_out().is_empty(), "{tally}");
    }
}
