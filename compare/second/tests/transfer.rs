//! The transfer program: document 01's example byte for byte, and what makes it stop.

use second::transfer::{transfer, Machine, Step};

fn bytes(hex: &str) -> Vec<u8> {
    let digits: Vec<u8> = hex
        .bytes()
        .filter(|byte| byte.is_ascii_hexdigit())
        .collect();
    let digit = |byte: u8| (byte as char).to_digit(16).expect("a hex digit") as u8;
    digits
        .chunks(2)
        .map(|pair| digit(pair[0]) << 4 | digit(pair[1]))
        .collect()
}

fn printed(hex: &str) -> String {
    String::from_utf8(transfer(&bytes(hex))).expect("plain letters")
}

const EXAMPLE: &str = "4C54 53 000F FF 01 0002; 4C54 4F 00000007;
    4C54 57 0006 0000000741424344454647; 4C54 52 000000000741FFFF42430744454647;
    4C54 43 00000007; 4C54 52 000000000741FFFF42430744454647; 4C54 4F 00000007";

const PRINTED: &str = "S 0 14 0 11
O 0
W 0 000000000741000042430744454647
R 0 00000007 41424344454647
C 0
R 12
O 12
end
";

#[test]
fn the_example() {
    assert_eq!(printed(EXAMPLE), PRINTED);
}

#[test]
fn every_cut_of_the_example() {
    let input = bytes(EXAMPLE);
    let ends = [0, 9, 16, 32, 50, 57, 75, 82];
    for cut in 0..input.len() {
        let out = String::from_utf8(transfer(&input[..cut])).expect("plain letters");
        let whole = ends.iter().filter(|&&end| end <= cut).count() - 1;
        let close = if ends.contains(&cut) {
            "end\n"
        } else {
            "stop 11\n"
        };
        let lines: String = PRINTED.split_inclusive('\n').take(whole).collect();
        assert_eq!(out, lines + close, "cut at {cut}");
    }
}

#[test]
fn stops() {
    assert_eq!(printed(""), "end\n");
    assert_eq!(printed("4C55 4F 00000001"), "stop 11\n");
    assert_eq!(printed("4C54 4F 00000001 00"), "O 0\nstop 11\n");
    assert_eq!(
        printed("4C54 4F 00000001 4C54 41 00000001"),
        "O 0\nstop 11\n"
    );
    assert_eq!(printed("4C54 57"), "stop 11\n");
    assert_eq!(printed("4C54 52"), "stop 11\n");
    // A refused S before any accepted one leaves no figures.
    assert_eq!(
        printed("4C54 53 0002 01 01 0001 4C54 52 0000"),
        "S 1\nstop 11\n"
    );
}

#[test]
fn a_refused_s_keeps_the_figures() {
    let refused = "4C54 53 000F FF 01 0006; 4C54 53 000F 00 01 0001;";
    let input = EXAMPLE.replacen("4C54 57", &format!("{refused} 4C54 57"), 1);
    assert_eq!(printed(&input), PRINTED.replacen("W 0", "S 2\nS 1\nW 0", 1));
}

#[test]
fn figures_without_room_for_a_job() {
    // n 3, q 4: k is 0, so W has a start alone.
    assert_eq!(
        printed("4C54 53 0003 03 01 0001; 4C54 57 0000; 4C54 52 000000"),
        "S 0 3 0 0\nW 10\nR 10\nend\n"
    );
}

#[test]
fn the_largest_figures() {
    assert_eq!(
        printed("4C54 53 1000 FF 06 0001; 4C54 53 03E7 FF 08 000F; 4C54 53 1000 FF 08 0001"),
        "S 0 6534856347522607104 1 4054\nS 0 9207044098280898870 0 823\nS 2\nend\n"
    );
    assert_eq!(
        printed("4C54 53 1001 FF 01 0001; 4C54 53 03E7 FF 09 000F"),
        "S 1\nS 1\nend\n"
    );
}

/// Document 02's change request 3.
#[test]
fn number_zero() {
    assert_eq!(
        printed(
            "4C54 4F 00000000; 4C54 43 00000000; 4C54 46 00000000; 4C54 53 000F FF 01 0002;
            4C54 57 0006 0000000041424344454647; 4C54 57 000E 0000000041424344454647;
            4C54 52 000000000041000042430744454647"
        ),
        "O 17\nC 17\nF 14\nS 0 14 0 11\nW 17\nW 5\nR 14\nend\n"
    );
}

/// Document 02's change request 6. With q 16, hex 10 is a silent cell: in the run, in the I-block, in the message.
#[test]
fn silent_cells() {
    assert_eq!(
        printed(
            "4C54 53 000F 0F 01 0002; 4C54 4F 00000007; 4C54 57 0006 0000000741;
            4C54 52 000000000000 1010 0000 07 07040100; 4C54 52 000000000000 1010 0000 10 07040100;
            4C54 52 000000000000 1010 0000 07 07040110; 4C54 52 000000000000 1110 0000 07 07040110"
        ),
        "S 0 14 0 11\nO 0\nW 0 000000000000000000000707040100\nR 0 00000007 41\nR 19\nR 19\nR 4\nend\n"
    );
}

#[test]
fn one_record_too_many() {
    let mut machine = Machine::default();
    machine.records = u32::MAX - 1;
    let mut out = Vec::new();
    let record = bytes("4C54 4F 00000001");
    assert_eq!(machine.step(&record, &mut out), Step::Record(7));
    assert_eq!(machine.step(&[], &mut out), Step::More);
    assert_eq!(machine.step(&record, &mut out), Step::Stop);
    assert_eq!(out, b"O 0\n");
}
