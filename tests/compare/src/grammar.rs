//! Job texts, as document 01 has them: the text of a job, what a text is read as, and the text of its plan.
use crate::job::*;
use crate::plans::{areas, plan, ranges, Plan};
use crate::refusals::refusal;

/// Letter, group, and of each field what `-` stands for.
const NO: Option<u32> = None;
const NONE: Option<u32> = Some(256);
const AWAY: Option<u32> = Some(u32::MAX);
const LINES: [(u8, &[Option<u32>]); 13] = [
    (b'H', &[NO, NO, NO]),
    (b'B', &[NO, NO, NO]),
    (b'E', &[NO, NO]),
    (b'I', &[Some(0), NO, NO, NO, NO, NONE, NONE]),
    (b'O', &[NO, NO]),
    (b'X', &[NO]),
    (b'L', &[NO, NO]),
    (b'S', &[NO]),
    (b'A', &[NO, NO]),
    (b'K', &[NO, NO]),
    (b'R', &[NO, NO, NO]),
    (b'P', &[NO, AWAY]),
    (b'M', &[NO, NO, AWAY, AWAY]),
];
/// The most records of each group that the program takes, registers, and ranges of its area list.
const MOST: usize = 64;

fn decimal(field: &str) -> Option<u32> {
    let plain = field.bytes().all(|b| b.is_ascii_digit()) && (field == "0" || !field.starts_with('0'));
    if plain { field.parse().ok() } else { None }
}

/// The kind of a line, and its fields; an instruction's first is whether it is placed.
fn fields(line: &[u8]) -> Option<(usize, Vec<u32>)> {
    let line = std::str::from_utf8(line).ok().filter(|line| line.len() < 128)?;
    let mut parts = line.split(',');
    let letter = parts.next()?.as_bytes();
    let kind = LINES.iter().position(|l| letter == [l.0])?;
    let given: Vec<&str> = parts.collect();
    let dashes = LINES[kind].1;
    if given.len() != dashes.len() {
        return None;
    }
    let numbers = given.iter().zip(dashes).map(|(field, dash)| if *field == "-" { *dash } else { decimal(field) });
    let mut numbers = numbers.collect::<Option<Vec<u32>>>()?;
    if kind == 3 {
        numbers.insert(0, u32::from(given[0] != "-"));
        numbers.push(0);
    }
    Some((kind, numbers))
}

/// The job of a text, or 11 with its line, or 1.
pub fn read(text: &[u8]) -> Result<Job, (u32, u32)> {
    let mut job = Job::default();
    let mut last = None;
    let lines: Vec<&[u8]> = text.split(|&b| b == b'\n').collect();
    for (at, line) in lines.iter().enumerate() {
        let malformed = Err((11, at as u32));
        if at + 1 == lines.len() {
            // behind the last newline nothing may stand, and there must be one line
            if !line.is_empty() || at == 0 {
                return malformed;
            }
            break;
        }
        let Some((kind, numbers)) = fields(line) else { return malformed };
        let follows = match (last, kind) {
            (None, _) => kind == 0,
            (Some(_), 0) => false,
            (Some(last), 3) => last <= 4,
            (Some(last), 4) => last == 3 || last == 4,
            (Some(last), _) => last <= kind,
        };
        if !follows {
            return malformed;
        }
        last = Some(kind);
        if kind == 0 {
            (job.points, job.v, job.budget) = (numbers[0], numbers[1], numbers[2]);
            continue;
        }
        if kind == 4 {
            let own = job.groups[INSTS].len() - 1;
            job.groups[INSTS][own] += 1;
        }
        job.groups[kind - 1].extend(numbers);
    }
    let over = (0..12).any(|group| job.count(group) > MOST) || job.v > MOST as u32;
    if over { Err((1, 0)) } else { Ok(job) }
}

pub fn write(job: &Job) -> String {
    let mut text = format!("H,{},{},{}\n", job.points, job.v, job.budget);
    let mut operands = job.rows(OPERANDS);
    for kind in 1..13 {
        if kind - 1 == OPERANDS {
            continue;
        }
        for row in job.rows(kind - 1) {
            let (numbers, own) = if kind == 3 { (&row[1..8], row[8]) } else { (row, 0) };
            text.push(LINES[kind].0 as char);
            for (at, (number, dash)) in numbers.iter().zip(LINES[kind].1).enumerate() {
                let unplaced = kind == 3 && at == 0 && row[0] == 0;
                let stands = unplaced || (dash == &Some(*number) && !(kind == 3 && at == 0));
                text += &if stands { ",-".to_string() } else { format!(",{number}") };
            }
            text.push('\n');
            for operand in operands.by_ref().take(own as usize) {
                text += &format!("O,{},{}\n", operand[0], operand[1]);
            }
        }
    }
    text
}

/// No line has an offset; the depth is the layout's.
fn planned(job: &Job, plan: &Plan, depth: u64) -> String {
    let locals = job.count(LOCALS);
    let mut text = String::new();
    for (i, cell) in plan.cells.chunks(2).enumerate() {
        text += &format!("C,{i},{},{}\n", cell[0], cell[1]);
    }
    let rows: Vec<&[u32]> = plan.items.chunks(4).collect();
    for (i, row) in rows.iter().enumerate() {
        text += &if i < locals { format!("L,{i},{}\n", row[0]) } else { format!("S,{},{}\n", i - locals, row[0]) };
    }
    for (i, row) in rows[..locals].iter().enumerate() {
        if rows.iter().filter(|other| other[0] == row[0]).count() > 1 {
            for range in plan.areas.chunks(2).skip(row[2] as usize).take(row[3] as usize) {
                text += &format!("G,{i},{},{}\n", range[0], range[1]);
            }
        }
    }
    text + &format!("T,{},{},{},{}\n", plan.counts[0], rows.len() as u64 - plan.counts[0], plan.counts[1], depth)
}

/// What the planning program prints, and the refusal's number or 0.
pub fn printed(text: &[u8]) -> (String, usize) {
    let refused = |(number, index): (u32, u32)| (format!("N,{number},{index}\n"), number as usize);
    let job = match read(text) {
        Ok(job) => job,
        Err(verdict) => return refused(verdict),
    };
    if let Some(verdict) = refusal(&job, &exact(&job, MOST)) {
        return refused(verdict);
    }
    let areas = areas(&job);
    if ranges(&areas) > MOST {
        return refused((9, 0));
    }
    let plan = plan(&job, &areas);
    match &plan.laid {
        Ok(layout) => (planned(&job, &plan, layout.depth), 0),
        Err(verdict) => refused(*verdict),
    }
}
