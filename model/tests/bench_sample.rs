//! The bench sample (01, Cases): its lines through write and run, and the output it prints.

use model::Coprocessor;

const INPUT: [&str; 14] = [
    "w 12 1 1",
    "w 18 4 70007",
    "w 1C 1 3",
    "w 20 4 FFFFFFFF",
    "w 24 4 2",
    "w 28 4 FFFFFFFC",
    "w 48 1 3",
    "w 4A 1 4",
    "w 50 4 FF",
    "w 58 4 AA",
    "w 60 2 3",
    "w 7C 4 05018000",
    "r 2",
    "r 9",
];

const OUTPUT: &str = "\
ok 0
ok 0
ok 0
ok 0
ok 0
ok 0
ok 0
ok 0
ok 0
ok 0
ok 0
ok 0
ok 2
ok 2
AA AA 00 00 00 00 00 00 00 00 AA AA 00 00 00 00
00 00 00 00 00 00 00 00 00 00 00 00 00 00 00 00
00 00 00 00 00 00 00 00 00 00 00 00 00 00 00 00
00 00 00 00 00 00 00 00 00 00 00 00 00 00 00 00
";

/// The refusal and the positions done of one line: hex offset and value, decimal length and allowance.
fn answer(line: &str, coprocessor: &mut Coprocessor, memory: &mut [u8]) -> (u32, u32) {
    let words: Vec<&str> = line.split(' ').collect();
    let hex = |word: &str| u32::from_str_radix(word, 16).unwrap();
    let decimal = |word: &str| word.parse().unwrap();
    match words[..] {
        ["w", offset, length, value] => {
            let refusal = coprocessor.write(hex(offset), decimal(length), hex(value));
            (refusal, 0)
        }
        ["r", allowance] => coprocessor.run(memory, decimal(allowance)),
        _ => panic!("neither w nor r: {line}"),
    }
}

fn printed(lines: &[&str]) -> String {
    let (mut coprocessor, _) = Coprocessor::fresh(64);
    let mut memory = [0; 64];
    let mut output = String::new();
    for line in lines {
        output += &match answer(line, &mut coprocessor, &mut memory) {
            (0, done) => format!("ok {done}\n"),
            (refusal, _) => format!("no {refusal}\n"),
        };
    }
    for row in memory.chunks(16) {
        let bytes: Vec<String> = row.iter().map(|byte| format!("{byte:02X}")).collect();
        output += &(bytes.join(" ") + "\n");
    }
    output
}

#[test]
fn the_sample_prints_what_the_paper_has() {
    assert_eq!(printed(&INPUT), OUTPUT);
}

#[test]
fn a_refused_line_prints_its_number() {
    assert!(printed(&["w 7C 4 0"]).starts_with("no 4\n"));
}
