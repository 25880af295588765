//! Document 01, "The run sheet": its example, and what breaks a sheet; document 02, N3: kind 7, N6: kinds 8 to 12,
//! and N8: kind 13.

const EXAMPLE: &str = "02 00  00 00 00 03 02  01 09 00 03 01  06 00  01 01 09 00 00 00 00 00 00
    02 00 00 00 00 11 00 00 00  01 01 09 00 00 00 00 00 00  04 03 00 00 00 28 00 00 00
    01 01 09 00 02 00 00 00 00  02 01 09 00 00 05 00 00 00";

const EXAMPLE_TEXT: &str = "\
m0 0
m1 0
0 0 - - 0
1 0 - - -
2 0 F3.0 P3.1 17
3 0 - - -
4 0 P3.1 - 42
5 10 - - -
end 1 2
";

fn bytes(hexadecimal: &str) -> Vec<u8> {
    hexadecimal
        .split_whitespace()
        .map(|byte| u8::from_str_radix(byte, 16).unwrap())
        .collect()
}

fn text(sheet: &[u8]) -> String {
    String::from_utf8(peer::run(sheet)).unwrap()
}

/// The text of a sheet with no mapping and one step.
fn one_step(step: &str) -> String {
    text(&bytes(&format!("00 00 01 00 {step}")))
}

const BROKEN: &str = "refused 11\n";

#[test]
fn example() {
    assert_eq!(text(&bytes(EXAMPLE)), EXAMPLE_TEXT);
}

#[test]
fn nothing_to_do() {
    assert_eq!(text(&[0, 0, 0, 0]), "end 0 0\n");
}

#[test]
fn every_shorter_or_longer_sheet_is_broken() {
    let mut sheet = bytes(EXAMPLE);
    for end in 0..sheet.len() {
        assert_eq!(text(&sheet[..end]), BROKEN, "cut at {end}");
    }
    sheet.push(0);
    assert_eq!(text(&sheet), BROKEN);
}

#[test]
fn counts_past_their_limits_are_broken() {
    let mappings = |count: u16| {
        let mut sheet = count.to_le_bytes().to_vec();
        sheet.resize(2 + 5 * usize::from(count), 0);
        sheet.extend([0, 0]);
        text(&sheet)
    };
    assert_ne!(mappings(256), BROKEN);
    assert_eq!(mappings(257), BROKEN);

    let steps = |count: u16| {
        let mut sheet = vec![0, 0];
        sheet.extend(count.to_le_bytes());
        sheet.extend([5, 0, 0, 0, 0, 0, 0, 0, 0].repeat(count.into()));
        text(&sheet)
    };
    assert_ne!(steps(4096), BROKEN);
    assert_eq!(steps(4097), BROKEN);
}

#[test]
fn kinds_and_unused_fields() {
    for kind in [0, 14, 0x80, 0x87, 0x8d, 0xff] {
        assert_eq!(
            one_step(&format!("{kind:02x} 00 00 00 00 00 00 00 00")),
            BROKEN
        );
    }
    // For each kind, the bytes after it that may be other than 0.
    let used: [&[usize]; 13] = [
        &[1, 2, 3, 4],
        &[1, 2, 3, 4, 5, 6, 7, 8],
        &[1],
        &[1, 5, 6, 7, 8],
        &[1],
        &[1, 2, 3],
        &[1, 2, 3, 4, 5, 6, 7, 8],
        &[1],
        &[1],
        &[1, 4, 5, 6, 7, 8],
        &[1, 4],
        &[1],
        &[1, 2, 3, 4],
    ];
    for (kind, used) in (1..).zip(used) {
        for field in 1..9 {
            let mut sheet = vec![0, 0, 1, 0, kind, 0, 0, 0, 0, 0, 0, 0, 0];
            sheet[4 + field] = 1;
            let broken = text(&sheet) == BROKEN;
            assert_eq!(broken, !used.contains(&field), "kind {kind}, byte {field}");
        }
    }
}

#[test]
fn refused_steps() {
    assert_eq!(
        one_step("01 10 00 00 00 00 00 00 00"),
        "0 3 - - -\nend 0 0\n"
    );
    assert_eq!(
        one_step("03 40 00 00 00 00 00 00 00"),
        "0 4 - - -\nend 0 0\n"
    );
    assert_eq!(
        one_step("05 80 00 00 00 00 00 00 00"),
        "0 6 - - -\nend 0 0\n"
    );
    assert_eq!(
        one_step("06 00 00 00 00 00 00 00 00"),
        "0 8 - - -\nend 0 0\n"
    );
}

/// Frame 5 at pages 0 and 1. 17 and 18 are written at its two ends, and 62 words sent between them, which leaves both
/// colours stale; one word is sent while both are held; a word is written, and all 64 are sent over it.
#[test]
fn parts() {
    let sheet = "02 00  00 00 00 05 02  00 01 00 05 02  0b 00
        02 00 00 00 00 11 00 00 00
        02 00 01 00 3f 12 00 00 00
        07 05 01 00 3e 64 00 00 00
        01 00 00 00 00 00 00 00 00
        01 00 01 00 3e 00 00 00 00
        01 00 01 00 3f 00 00 00 00
        07 05 3f 00 01 ff ff ff ff
        01 00 00 00 3f 00 00 00 00
        02 00 01 00 01 13 00 00 00
        07 05 00 00 40 c8 00 00 00
        03 05 00 00 00 00 00 00 00";
    let right = "m0 0\nm1 0\n0 0 - - -\n1 0 F5.0 - -\n\
        2 0 F5.1 - -\n3 0 P5.0 - 17\n4 0 P5.1 - 161\n5 0 - - 18\n\
        6 0 - - -\n7 0 P5.0 - 4294967295\n\
        8 0 P5.1 - -\n9 0 P5.1 - -\n10 0 - - 200\nend 2 5\n";
    assert_eq!(text(&bytes(sheet)), right);
}

/// A part of no words, or past the page, is refused and does not break the sheet.
#[test]
fn refused_parts() {
    let rows = [
        ("07 05 00 00 00 00 00 00 00", 13),
        ("07 05 00 00 41 00 00 00 00", 13),
        ("07 05 00 00 ff 00 00 00 00", 13),
        ("07 05 3f 00 02 00 00 00 00", 13),
        ("07 05 40 00 01 00 00 00 00", 13),
        ("07 05 00 01 01 00 00 00 00", 13),
        ("07 05 ff ff 01 00 00 00 00", 13),
        ("07 05 ff ff ff ff ff ff ff", 13),
        ("07 40 ff ff 00 00 00 00 00", 4),
        ("07 40 00 00 0c 00 00 00 00", 4),
        ("07 3f 34 00 0c 00 00 00 00", 0),
    ];
    for (step, number) in rows {
        let right = format!("0 {number} - - -\nend 0 0\n");
        assert_eq!(one_step(step), right, "{step}");
    }
}

/// Frame 5 at pages 0 and 1, its words 40 to 103, with 17 written over the first. The device takes the first and the
/// last while page 1 reads the first; it writes the second while nothing may read it, and page 1 purges before it
/// finds that word.
#[test]
fn transfers_that_take_a_while() {
    let sheet = "02 00  00 00 00 05 02  00 01 00 05 01  14 00
        04 05 00 00 00 28 00 00 00
        02 00 00 00 00 11 00 00 00
        08 05 00 00 00 00 00 00 00
        0b 05 00 00 00 00 00 00 00
        01 00 01 00 00 00 00 00 00
        0b 05 00 00 3f 00 00 00 00
        02 00 00 00 00 12 00 00 00
        02 00 01 00 00 12 00 00 00
        0a 05 00 00 00 13 00 00 00
        0c 05 00 00 00 00 00 00 00
        0b 05 00 00 00 00 00 00 00
        02 00 00 00 00 12 00 00 00
        09 05 00 00 00 00 00 00 00
        0a 05 00 00 01 ff ff ff ff
        0b 05 00 00 01 00 00 00 00
        01 00 01 00 01 00 00 00 00
        07 05 00 00 40 00 00 00 00
        0c 05 00 00 00 00 00 00 00
        01 00 01 00 01 00 00 00 00
        03 05 00 00 00 00 00 00 00";
    let right = "m0 0\nm1 0\n0 0 - - -\n1 0 - - -\n\
        2 0 F5.0 - -\n3 0 - - 17\n4 0 - - 17\n5 0 - - 103\n\
        6 15 - - -\n7 10 - - -\n8 16 - - -\n9 0 - - -\n10 16 - - -\n11 0 - - -\n\
        12 0 F5.0 - -\n13 0 - - -\n14 16 - - -\n15 15 - - -\n16 15 - - -\n17 0 - - -\n\
        18 0 P5.1 - 4294967295\n19 0 - - 18\nend 2 1\n";
    assert_eq!(text(&bytes(sheet)), right);
}

/// None of these breaks the sheet.
#[test]
fn refused_steps_of_transfers() {
    let rows = [
        ("08 3f 00 00 00 00 00 00 00", 0),
        ("08 40 00 00 00 00 00 00 00", 4),
        ("08 ff 00 00 00 00 00 00 00", 4),
        ("09 3f 00 00 00 00 00 00 00", 0),
        ("09 40 00 00 00 00 00 00 00", 4),
        ("0a 40 00 00 40 01 00 00 00", 4),
        ("0a 3f 00 00 40 01 00 00 00", 6),
        ("0a 3f 00 00 ff ff ff ff ff", 6),
        ("0a 3f 00 00 3f 01 00 00 00", 16),
        ("0b 40 00 00 40 00 00 00 00", 4),
        ("0b 3f 00 00 40 00 00 00 00", 6),
        ("0b 3f 00 00 3f 00 00 00 00", 16),
        ("0c 40 00 00 00 00 00 00 00", 4),
        ("0c 3f 00 00 00 00 00 00 00", 16),
    ];
    for (step, number) in rows {
        let right = format!("0 {number} - - -\nend 0 0\n");
        assert_eq!(one_step(step), right, "{step}");
    }
}

/// Frame 5 at page 0 to be written and at pages 8 and 9, of colours 0 and 1, to be fetched; its words 40 to 103. What
/// is written through page 0, sent in a part and brought word by word is fetched. Page 0's colour is held by the first
/// flush and stale by the part (step 5), stale by the second flush (11), and stale by the last part (26). The last line
/// counts two flushes, three purges of the instruction cache and three of the data cache.
#[test]
fn fetches() {
    let sheet = "03 00  00 00 00 05 02  00 08 00 05 03  00 09 00 05 03  1c 00
        04 05 00 00 00 28 00 00 00
        0d 00 08 00 00 00 00 00 00
        02 00 00 00 00 11 00 00 00
        0d 00 08 00 00 00 00 00 00
        0d 00 09 00 3f 00 00 00 00
        07 05 3f 00 01 ff ff ff ff
        0d 00 09 00 3f 00 00 00 00
        02 00 00 00 01 12 00 00 00
        0d 00 00 00 00 00 00 00 00
        02 00 08 00 00 13 00 00 00
        0d 00 0a 00 00 00 00 00 00
        09 05 00 00 00 00 00 00 00
        0d 00 08 00 00 00 00 00 00
        0a 05 00 00 02 13 00 00 00
        0c 05 00 00 00 00 00 00 00
        08 05 00 00 00 00 00 00 00
        0d 00 08 00 02 00 00 00 00
        0c 05 00 00 00 00 00 00 00
        0d 00 08 00 01 00 00 00 00
        05 40 00 00 00 00 00 00 00
        05 7f 00 00 00 00 00 00 00
        05 80 00 00 00 00 00 00 00
        0d 00 08 00 40 00 00 00 00
        0d 10 08 00 00 00 00 00 00
        03 05 00 00 00 00 00 00 00
        01 00 00 00 02 00 00 00 00
        07 05 00 00 01 14 00 00 00
        01 00 00 00 00 00 00 00 00";
    let right = "m0 0\nm1 0\nm2 0\n0 0 - - -\n1 0 - - 40\n2 0 - - -\n\
        3 0 F5.0 I5.0 17\n4 0 - - 103\n5 0 - - -\n6 0 I5.1 - 4294967295\n7 0 P5.0 - -\n\
        8 17 - - -\n9 10 - - -\n10 8 - - -\n11 0 F5.0 - -\n12 15 - - -\n13 0 - - -\n14 0 - - -\n\
        15 0 - - -\n16 0 I5.0 - 19\n17 0 - - -\n18 0 - - 18\n19 0 - - -\n20 0 - - -\n21 6 - - -\n\
        22 6 - - -\n23 3 - - -\n24 0 - - 17\n25 0 P5.0 - 19\n26 0 - - -\n27 0 P5.0 - 20\nend 2 6\n";
    assert_eq!(text(&bytes(sheet)), right);
}

/// None of these breaks the sheet; a word beside the fetch does.
#[test]
fn refused_fetches() {
    let rows = [
        ("0d 10 00 04 40 00 00 00 00", 3),
        ("0d 00 00 04 40 00 00 00 00", 3),
        ("0d 00 00 00 40 00 00 00 00", 6),
        ("0d 00 00 00 ff 00 00 00 00", 6),
        ("0d 00 00 00 3f 00 00 00 00", 8),
        ("0d 0f ff 03 3f 00 00 00 00", 8),
    ];
    for (step, number) in rows {
        let right = format!("0 {number} - - -\nend 0 0\n");
        assert_eq!(one_step(step), right, "{step}");
    }
    for word in ["01 00 00 00", "00 00 00 01", "ff ff ff ff"] {
        assert_eq!(one_step(&format!("0d 00 00 00 00 {word}")), BROKEN);
    }
}

/// Rights 4 are the first past the last. The sheet is not broken by them.
#[test]
fn rights() {
    let sheet = "06 00  00 00 00 05 00  00 01 00 05 01  00 02 00 05 02
        00 03 00 05 03  00 04 00 05 04  00 05 00 05 ff  00 00";
    let right = "m0 5\nm1 0\nm2 0\nm3 0\nm4 5\nm5 5\nend 0 0\n";
    assert_eq!(text(&bytes(sheet)), right);
}

#[test]
fn device_words_wrap() {
    let sheet = "01 00  00 00 00 00 01  03 00  04 00 00 00 00 ff ff ff ff
        01 00 00 00 01 00 00 00 00  03 00 00 00 00 00 00 00 00";
    let wrapped = "m0 0\n0 0 - - -\n1 0 - - 0\n2 0 - - 4294967295\nend 0 0\n";
    assert_eq!(text(&bytes(sheet)), wrapped);
}
