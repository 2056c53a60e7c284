//! Compares what the test programs print with what slots.rs answers on the same cases: the stored ones, and random ones.
use crate::cases::{self, Case, Random};
use crate::{areas, carry, items, spills};
use std::io::Write;
use std::process::{Command, Stdio};

/// A test program: the lines that it prints for a case as slots.rs has them, and a random case that is not refused. A line of which slots.rs says nothing
/// is none. A case prints as many lines whether it is refused or not.
struct Program {
    name: &'static str,
    count: fn(&Case) -> usize,
    lines: fn(&Case) -> Vec<Option<String>>,
    random: fn(&mut Random) -> String,
}

const PROGRAMS: [Program; 4] = [
    Program { name: "carry_tests", count: carry::count, lines: carry::lines, random: carry::random },
    Program { name: "area_tests", count: |_| 1, lines: areas::lines, random: areas::random },
    Program { name: "spill_tests", count: |_| 1, lines: spills::lines, random: spills::random },
    Program { name: "item_tests", count: |_| 1, lines: items::lines, random: items::random },
];

#[derive(Default)]
struct Tally {
    cases: usize,
    equal: usize,
    silent: usize,
    refused: usize,
}

/// Holds the lines of one case to slots.rs's, which has no refusals.
fn hold(program: &Program, case: &Case, printed: &[&str], tally: &mut Tally) {
    let refused = printed.iter().filter(|line| line.contains(" refused ")).count();
    tally.cases += 1;
    tally.refused += refused;
    if refused == printed.len() {
        return;
    }
    for (line, expected) in printed.iter().zip((program.lines)(case)) {
        match expected {
            _ if line.contains(" refused ") => (),
            None => tally.silent += 1,
            Some(expected) if expected == *line => tally.equal += 1,
            Some(expected) => panic!("{} on\n{}\nprints   {line}\nslots.rs {expected}", program.name, case.text),
        }
    }
}

fn hold_all(program: &Program, input: &str, printed: &str, tally: &mut Tally) {
    let mut lines = printed.lines();
    for line in input.lines() {
        let case = Case::read(line);
        let own: Vec<&str> = lines.by_ref().take((program.count)(&case)).collect();
        assert_eq!(own.len(), (program.count)(&case), "{}: the printed lines end before {line}", program.name);
        hold(program, &case, &own, tally);
    }
    assert_eq!(lines.next(), None, "{}: more lines than cases", program.name);
}

/// What a test program prints on that input.
pub fn run(program: &str, input: &str) -> String {
    let mut child = Command::new(format!("crates/{program}/out/{program}")).stdin(Stdio::piped()).stdout(Stdio::piped()).spawn().expect("the program is built");
    let mut stdin = child.stdin.take().unwrap();
    stdin.write_all(input.as_bytes()).unwrap();
    drop(stdin);
    String::from_utf8(child.wait_with_output().unwrap().stdout).unwrap()
}

fn say(program: &Program, what: &str, t: &Tally) {
    println!(
        "{}, {what}: {} cases, {} lines equal, {} of which slots.rs says nothing, {} refused",
        program.name, t.cases, t.equal, t.silent, t.refused
    );
}

/// The stored cases of each program, and as many random ones.
pub fn compare(wanted: usize) {
    for program in &PROGRAMS {
        let mut stored = Tally::default();
        let file = |name: &str| std::fs::read_to_string(format!("crates/{}/{name}", program.name)).expect("run in the repository's root");
        hold_all(program, &file("stdin"), &file("stdout"), &mut stored);
        say(program, "stored", &stored);

        let mut tally = Tally::default();
        let mut random = Random(0x9e37_79b9_7f4a_7c15);
        while tally.cases < wanted {
            let mut input = String::new();
            while input.len() < cases::ROOM - cases::LONGEST {
                input += &(program.random)(&mut random);
            }
            hold_all(program, &input, &run(program.name, &input), &mut tally);
        }
        assert_eq!(tally.refused, 0, "{}: a random case was refused", program.name);
        say(program, "random", &tally);
    }
}
