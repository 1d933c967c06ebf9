//! Tests of the lines that a script prints.

use super::*;

fn played(script: &[u8]) -> String {
    let mut text = String::new();
    play_script(script, |part| text.push_str(part));
    text
}

#[test]
fn an_empty_script_prints_nothing() {
    assert_eq!(played(&[]), "");
}

#[test]
fn at_the_start_both_desks_are_empty() {
    assert_eq!(played(&[64, 65]), "0 c 0\n1 l 0 0\n");
}

#[test]
fn stop_names_the_entry() {
    // "Where the script ends inside an entry, or an entry has a code or a
    // choice not listed here, the program prints `stop N`".
    assert_eq!(played(&[3, 9, 9, 9, 9, 4]), "0 0 - 0 0 0 0 0 - -\nstop 1\n");
    assert_eq!(played(&[17, 0]), "stop 0\n");
    assert_eq!(played(&[17, 0, 255]), "stop 0\n");
    assert_eq!(played(&[17, 2, 255, 0]), "stop 0\n");
    // "a byte 0 or 16 (else it is a choice that is not listed)".
    for length in (1..=15).chain(17..=255) {
        assert_eq!(played(&[&[18, length][..], &[64; 40]].concat()), "stop 0\n");
    }
    assert_eq!(played(&[18, 0]), "stop 0\n");
    assert_eq!(played(&[18, 0, 0]), "0 6 - 0 0 0 0 0 - -\n");
    assert_eq!(played(&[1, 0, 4]), "stop 0\n");
    assert_eq!(played(&[0]), "stop 0\n");
}

#[test]
fn write_prints_refusal_length_and_buffer() {
    assert_eq!(played(&[48, 0, 0, 2]), "0 1 0 eeee 0\n");
    assert_eq!(played(&[48, 1, 13, 0, 0]), "0 2 0 - 0\n");
    let mut script = vec![48, 19, 10, 4, 16];
    script.extend_from_slice(&[0xAB; 16]);
    script.extend_from_slice(&[1, 21]);
    let expected = format!("0 0 19 ee0a0410{}ee -\n", "ab".repeat(16));
    assert_eq!(played(&script), expected);
    assert_eq!(played(&[48, 3, 10, 4, 0, 1, 5]), "0 0 3 ee0a0400ee -\n");
}

#[test]
fn left_counts_what_follows() {
    let mut script = vec![17, 1, 255, 21, 10, 4, 16];
    script.extend_from_slice(&[1; 16]);
    script.extend_from_slice(&[8, 8]);
    script.extend_from_slice(&[32, 255, 3, 10, 6, 0]);
    assert_eq!(played(&script), "0 6 - 0 0 0 0 2 - -\n1 2 - 0 0 0 0 3 1 -\n");
}

/// Bytes in hexadecimal as REPLAY-02 has them: "`a0..af` stands for the
/// sixteen bytes a0, a1 and so on".
fn from_hex(text: &str) -> Vec<u8> {
    let mut bytes = Vec::new();
    for word in text.split_whitespace() {
        match word {
            "a0..af" => bytes.extend(0xA0..=0xAF),
            "00..00" => bytes.extend([0; 16]),
            _ => bytes.push(u8::from_str_radix(word, 16).unwrap()),
        }
    }
    bytes
}

/// Plays entries and holds what is printed against the lines beside them.
fn assert_example(examples: &[(&str, &str)]) {
    let script: Vec<u8> = examples.iter().flat_map(|(entry, _)| from_hex(entry)).collect();
    let lines: Vec<&str> = examples.iter().map(|(_, line)| *line).collect();
    let identifier: String = (0xA0..=0xAF).map(|byte| format!("{byte:02x}")).collect();
    let expected = format!("{}\n", lines.join("\n")).replace("a0..af", &identifier);
    assert_eq!(played(&script), expected);
}

/// REPLAY-02's example of request 2 as it is since request 1: a place in the
/// entries, a length before the identifier, `at` at the end of a step. The first
/// fault of its fifth entry was the keep 2, so here it is too.
#[test]
fn the_examples_of_request_2() {
    assert_example(&[
        ("20 ff 01 06", "0 1 - 0 0 0 0 1 1 -"),
        ("20 ff 01 0d", "1 2 - 0 0 0 0 1 0 -"),
        ("11 00 ff 03 05 80 80", "2 1 - 0 0 0 0 3 1 -"),
        ("20 ff 16 01 01 10 a0..af 02 01 0a", "3 2 - 0 0 0 0 22 21 -"),
        ("30 14 03 04 10 a0..af 02 00 02", "4 2 0 eeee 19"),
        ("20 ff 1a 06 01 10 a0..af 01 02 03 03 00 00 22", "5 6 070410a0..af02 0 0 0 0 0 - -"),
    ]);
}

/// REPLAY-02's example of request 1, as it stands there.
#[test]
fn the_example_of_request_1() {
    assert_example(&[
        ("01 01 03 03 00 00 03 03", "0 0 - 0 0 0 0 0 - -"),
        ("20 ff 0a 01 01 00 00 03 03 00 00 22 00", "1 0 03020000 8 0 0 0 0 - 0"),
        ("20 ff 0a 01 01 00 00 03 03 00 00 22 04", "2 0 03040000 8 0 0 0 0 - 1"),
        ("20 ff 1c 01 01 10 a0..af 02 01 02 03 03 00 00 22 04", "3 0 030410a0..af00 8 0 0 0 0 - 2"),
        ("22 03 03 00 00", "4 0 050300 0 0 0 0 0 - 0"),
        ("20 ff 0b 06 01 00 02 01 02 03 03 00 00 22", "5 0 - 0 0 0 0 0 - 0"),
        ("23 00 00 01", "6 0 0b0500 0 8 0 0 0 - 0"),
        ("20 ff 1b 0a 01 10 00..00 02 01 02 03 03 00 00 22", "7 0 - 0 8 0 0 0 - 0"),
        ("20 00 03 08 04 00", "8 7 - 0 0 0 0 0 - -"),
        ("20 01 03 08 04 00", "9 6 - 0 0 0 0 0 - -"),
        ("24 10 a0..af 09", "10 0 0a0110a0..af0201020303000022 0 8 0 0 0 - 0"),
    ]);
}

#[test]
fn both_desks_and_the_write_tell_every_truncation() {
    // A ccbsRequest in Setup: numberA 12, numberB 300, service 300, flags 1.
    let good = from_hex("01 01 10 a0..af 02 01 02 03 03 00 00 ac 02 01");
    for length in 0..good.len() {
        let counted = [&[length as u8], &good[..length]].concat();
        let script = [&[17, 1, 0], &counted[..], &[32, 0], &counted, &[48], &counted, &[0, 1, 64, 65]].concat();
        let step = format!("1 - 0 0 0 0 {length} {length} -");
        let expected = format!("0 {step}\n1 {step}\n2 1 0 ee {length}\n3 c 0\n4 l 0 0\n");
        assert_eq!(played(&script), expected);
    }
}

#[test]
fn a_place_is_told_for_refused_bytes_alone() {
    // "`-` in every other line, a 2 of an ask or of a start among them".
    assert_eq!(played(&from_hex("01 01 00 03 00")), "0 2 - 0 0 0 0 0 - -\n");
    assert_eq!(played(&from_hex("10 10 a0..af 01 01 0a 01 01 00 00 00 00")), "0 2 - 0 0 0 0 0 - -\n");
    assert_eq!(played(&from_hex("22 00")), "0 10 - 0 0 0 0 0 - -\n");
    // A message that is read and refused, bytes behind it or not.
    assert_eq!(played(&from_hex("11 00 ff 13 08 01 10 a0..af")), "0 3 - 0 0 0 0 0 - -\n");
    assert_eq!(played(&from_hex("11 00 ff 15 0a 04 10 a0..af 80 80")), "0 6 - 0 0 0 0 2 - -\n");
    // "`-` else, and so with 12".
    assert_eq!(played(&from_hex("30 13 0a 04 10 a0..af 00 02")), "0 12 0 eeee -\n");
    assert_eq!(played(&from_hex("30 13 0a 04 10 a0..af 03 02")), "0 12 0 eeee -\n");
}

/// The lines behind a prefix of entries; `ID` in a line is a0 to af.
fn lines_behind(script: &str, count: usize) -> Vec<String> {
    let identifier: String = (0xA0..=0xAF).map(|byte| format!("{byte:02x}")).collect();
    let text = played(&from_hex(script)).replace(&identifier, "ID");
    text.lines().skip(count).map(str::to_string).collect()
}

#[test]
fn request_5_the_kind_is_printed_as_it_is_now() {
    // CCNR, can-keep; the result with keep in Connect; then twice: offered,
    // accepted, busy again.
    let again = "11 00 ff 13 05 03 10 a0..af 12 10 a0..af ff 11 00 ff 14 07 04 10 a0..af 01";
    let start = "10 10 a0..af 02 00 01 05 00 00 01 00 11 00 ff 14 03 02 10 a0..af 01";
    let lines = lines_behind(&format!("{start} 40 {again} 40 {again} 40"), 2);
    let expected = [
        "2 c 1",
        "c ID 2 - 5 0 1 1 1 2 0 - 3600 -",
        "3 0 - 4 0 4 0 0 - 0",
        "4 0 060110ID00010500 0 4 0 0 0 - 0",
        "5 0 - 0 0 10 0 0 - 0",
        "6 c 1",
        "c ID 1 - 5 0 1 1 1 2 0 - 3600 -",
        "7 0 - 4 0 4 0 0 - 0",
        "8 0 060110ID00010500 0 4 0 0 0 - 0",
        "9 0 - 0 0 7 0 0 - 0",
        "10 c 1",
        "c ID 1 - 5 0 1 1 1 2 0 - 3600 -",
    ];
    assert_eq!(lines, expected);
    // The line's end: a line that allows CCNR alone, busy at the request.
    let start = "01 01 01 05 02 03 21 01 05 01 20 ff 18 02 01 10 a0..af 00 01 05 00 01 21 01 05 00 22 01 05";
    let lines = lines_behind(&format!("{start} 21 01 05 01 20 ff 17 06 01 10 a0..af 00 01 05 00 41"), 5);
    let expected =
        ["5 0 - 0 0 0 0 0 - -", "6 0 070410ID01 0 0 0 0 0 - 0", "7 l 1 1", "l 5 2 1", "r ID 1 - 5 0 1 1 1 1 0 0 86460"];
    assert_eq!(lines, expected);
}

#[test]
fn request_11_the_connection_fell_at_both_ends() {
    // 22 and 37 print a step line: refusal 0, 6 or 7 and nothing else but `at`.
    let nothing = "0 - 0 0 0 0 0 - 0";
    assert_eq!(played(&from_hex("16 10 a0..af 00 25 00 00")), "0 6 - 0 0 0 0 0 - -\n1 6 - 0 0 0 0 0 - -\n");
    let ask = "10 10 a0..af 01 00 01 05 00 00 01 00";
    let fell = "16 10 a0..af ff";
    let lines = lines_behind(&format!("{ask} {fell} 11 00 ff 14 03 02 10 a0..af 01 {fell} 16 00 00 40"), 1);
    let expected = [
        "1 7 - 0 0 0 0 0 - -".to_string(),
        "2 0 - 2 1 1 0 0 - 0".to_string(),
        format!("3 {nothing}"),
        format!("4 {nothing}"),
        "5 c 1".to_string(),
        "c ID 1 - 5 0 1 1 1 2 1 - 900 -".to_string(),
    ];
    assert_eq!(lines, expected);
    // A desk that keeps and retains; the offer then goes in Setup.
    let start = "01 01 01 05 03 03 20 ff 18 01 01 10 a0..af 00 01 05 00 01";
    let lines = lines_behind(&format!("{start} 25 10 a0..af 07 22 01 05 41"), 2);
    let expected = [
        format!("2 {nothing}"),
        "3 0 050110ID00010500 0 0 0 0 0 - 0".to_string(),
        "4 l 1 1".to_string(),
        "l 5 3 0".to_string(),
        "r ID 1 - 5 0 1 1 2 0 0 1 3660".to_string(),
    ];
    assert_eq!(lines, expected);
}

#[test]
fn an_ask_and_a_print() {
    let mut script = vec![16, 16];
    script.extend_from_slice(&[0x0F; 16]);
    script.extend_from_slice(&[1, 2, 4, 2, 1, 9, 0x2C, 0x01, 1, 2, 64]);
    let id = "0f".repeat(16);
    let expected = format!("0 0 010110{id}0204020109ac0205 1 0 0 0 0 - 0\n1 c 1\nc {id} 1 42 9 300 1 - - 1 0 20 - -\n");
    assert_eq!(played(&script), expected);
    // Without an identifier, twice.
    let ask = "10 00 01 02 04 02 01 09 2c 01 01 02";
    let lines = lines_behind(&format!("{ask} {ask} 40 12 00 02 14 00 00 40"), 0);
    let expected = [
        "0 0 0101000204020109ac0205 1 0 0 0 0 - 0",
        "1 0 0101000204020109ac0205 1 0 0 0 0 - 1",
        "2 c 2",
        "c - 1 42 9 300 1 - - 1 0 20 - -",
        "c - 1 42 9 300 1 - - 1 0 20 - -",
        "3 6 - 0 0 0 0 0 - -",
        "4 0 0a0400 0 1 9 0 0 - 0",
        "5 c 1",
        "c - 1 42 9 300 1 - - 1 0 20 - -",
    ];
    assert_eq!(lines, expected);
}

/// REPLAY-02's example of request 6, as it stands there.
#[test]
fn the_example_of_request_6() {
    assert_example(&[
        ("02 14 00 00 00 3c 00 00 00 10 0e 00 00 0a 00 00 00", "0 0 - 0 0 0 0 0 - -"),
        ("03 f6 ff ff ff", "1 0 - 0 0 0 0 0 - -"),
        ("10 10 a0..af 01 02 01 02 03 03 00 00 22 00 01 00", "2 0 010110a0..af020102030300002201 1 0 0 0 0 - 0"),
        ("10 00 01 02 01 02 03 03 00 00 22 00 01 00", "3 0 010100020102030300002201 1 0 0 0 0 - 1"),
        ("11 00 ff 14 03 04 10 a0..af 01", "4 0 - 2 1 1 0 0 - 0"),
        ("40", "5 c 2\nc a0..af 1 12 300 34 1 1 2 2 0 - 50 -\nc - 1 12 300 34 1 - - 1 0 10 - -"),
        ("03 0a 00 00 00", "6 0 - 0 0 0 0 0 - -"),
        ("17 02 00", "7 12 0 - 0 eeee"),
        ("17 05 00", "8 0 1 1 3 0a0400eeee"),
    ]);
}

#[test]
fn request_6_a_refused_start_leaves_the_desk_and_its_lengths() {
    // T1 5, T2 60 and 70, T3 11; an ask; then each length out of its range, alone.
    let start = "02 05 00 00 00 3c 00 00 00 46 00 00 00 0b 00 00 00";
    let ask = "10 00 01 00 01 05 00 00 01 00";
    let refused = [
        "02 00 00 00 00 3c 00 00 00 3c 00 00 00 0a 00 00 00",
        "02 11 0e 00 00 3c 00 00 00 3c 00 00 00 0a 00 00 00",
        "02 01 00 00 00 3b 00 00 00 3c 00 00 00 0a 00 00 00",
        "02 01 00 00 00 11 0e 00 00 3c 00 00 00 0a 00 00 00",
        "02 01 00 00 00 3c 00 00 00 3b 00 00 00 0a 00 00 00",
        "02 01 00 00 00 3c 00 00 00 81 51 01 00 0a 00 00 00",
        "02 01 00 00 00 3c 00 00 00 3c 00 00 00 09 00 00 00",
        "02 01 00 00 00 3c 00 00 00 3c 00 00 00 1f 00 00 00",
    ];
    for bad in refused {
        let lines = lines_behind(&format!("{start} {ask} {bad} {ask} 40"), 2);
        let expected = [
            "2 2 - 0 0 0 0 0 - -",
            "3 0 0101000001050001 1 0 0 0 0 - 1",
            "4 c 2",
            "c - 1 - 5 0 1 - - 1 0 5 - -",
            "c - 1 - 5 0 1 - - 1 0 5 - -",
        ];
        assert_eq!(lines, expected);
    }
    // The edges are taken, and the desk is empty then.
    let edges =
        ["02 01 00 00 00 3c 00 00 00 3c 00 00 00 0a 00 00 00", "02 10 0e 00 00 10 0e 00 00 80 51 01 00 1e 00 00 00"];
    for good in edges {
        assert_eq!(lines_behind(&format!("{start} {ask} {good} 40"), 2), ["2 0 - 0 0 0 0 0 - -", "3 c 0"]);
    }
}

#[test]
fn request_6_the_count_holds_over_starts_and_at_both_desks() {
    let clerk = "02 14 00 00 00 3c 00 00 00 10 0e 00 00 0a 00 00 00";
    let ask = "10 00 01 00 01 05 00 00 01 00";
    let line = "01 01 01 05 03 03 20 ff 08 01 01 00 00 01 05 00 00";
    let lines = lines_behind(&format!("03 00 01 00 00 {clerk} {ask} {line} 40 41"), 5);
    let expected = ["5 c 1", "c - 1 - 5 0 1 - - 1 0 276 - -", "6 l 1 1", "l 5 3 0", "r - 1 - 5 0 0 1 1 0 0 0 3916"];
    assert_eq!(lines, expected);
}

#[test]
fn request_6_rooms_and_stops() {
    assert_eq!(played(&from_hex("17 00 00 26 00 00")), "0 0 0 - 0 -\n1 0 0 - 0 -\n");
    let full = format!("0 0 0 - 0 {}\n", "ee".repeat(2048));
    assert_eq!(played(&from_hex("17 00 08")), full);
    assert_eq!(played(&from_hex("26 00 08")), full);
    for stopping in ["17 01 08", "26 01 08", "17 ff ff", "26 00 09", "17", "17 00", "26", "26 00"] {
        assert_eq!(played(&from_hex(stopping)), "stop 0\n");
    }
    for code in [2, 3] {
        let whole = if code == 2 { 17 } else { 5 };
        for length in 1..whole {
            assert_eq!(played(&[&[code][..], &vec![64; length - 1]].concat()), "stop 0\n");
        }
    }
}

#[test]
fn request_6_a_tick_at_the_line_desk() {
    // Two requests without identifiers, CCBS at count 0 and CCNR at count 1, and one
    // with an identifier, RLS; then both CCBS guards are due.
    let start = "01 01 01 05 03 03 20 ff 08 01 01 00 00 01 05 00 02 03 01 00 00 00 20 ff 08 02 01 00 00 01 05 00 02";
    let third = "03 00 00 00 00 20 ff 18 01 01 10 a0..af 00 01 05 00 04";
    let lines =
        lines_behind(&format!("{start} {third} 03 4b 0e 00 00 26 ff 00 03 4c 0e 00 00 26 19 00 26 1b 00 41"), 7);
    let expected = [
        format!("7 0 0 - 0 {}", "ee".repeat(255)),
        "8 0 - 0 0 0 0 0 - -".to_string(),
        format!("9 12 0 - 0 {}", "ee".repeat(25)),
        "10 0 2 0,2 26 0a04000a0110ID00010500ee".to_string(),
        "11 l 1 1".to_string(),
        "l 5 3 0".to_string(),
        "r - 2 - 5 0 0 1 1 0 0 0 86461".to_string(),
    ];
    assert_eq!(lines, expected);
}
