//! A call of an entry through the static library: what it must answer, and what the lists that it was lent must hold afterwards.
use crate::cases::Random;

/// A number, and what stands at the front of each answer list and of the rows; that there is none; or a refusal's number and index.
#[derive(Debug)]
pub enum Wanted {
    Given(u64, Vec<Vec<u32>>, Vec<u64>),
    Absent,
    Refused(u32, u32),
}

/// What is answered where there is none.
pub const ABSENT: u64 = u64::MAX;

pub fn code(number: u32, index: u32) -> u64 {
    (u64::from(number) << 32) + u64::from(index)
}

/// What is lent, cut where it is long.
pub fn cut(lent: &dyn std::fmt::Debug) -> String {
    format!("{lent:?}").chars().take(6000).collect()
}

/// The answer lists, rows of bits, and the work space.
#[derive(Clone, Debug, PartialEq)]
pub struct Room {
    pub lists: Vec<Vec<u32>>,
    pub rows: Vec<u64>,
    pub work: Vec<u64>,
}

impl Room {
    /// With any numbers in them.
    pub fn any(r: &mut Random, lists: &[usize], rows: usize, work: usize) -> Self {
        let lists = lists.iter().map(|&n| (0..n).map(|_| r.number()).collect()).collect();
        let mut words = |n: usize| (0..n).map(|_| r.word()).collect();
        Self { lists, rows: words(rows), work: words(work) }
    }

    /// The front of an answer list, which a call has written.
    pub fn front(&self, list: usize, count: usize) -> Vec<u32> {
        self.lists[list].iter().take(count).copied().collect()
    }
}

/// A length: mostly the one that is needed, now and then some more, or less.
pub fn about(r: &mut Random, needed: usize) -> usize {
    match r.below(16) {
        0 => needed.saturating_sub(1 + r.below(3) as usize),
        1..=5 => needed + 1 + r.below(4) as usize,
        _ => needed,
    }
}

/// The same in whole rows, but for one in thirty.
pub fn about_rows(r: &mut Random, needed: usize, width: usize) -> usize {
    if r.one_in(30) { about(r, width * needed) } else { width * about(r, needed) }
}

/// One call: what it was lent, what it answered, and what it left.
pub struct Called {
    pub before: Room,
    pub answer: u64,
    pub after: Room,
}

impl Called {
    pub fn new(before: Room, call: impl FnOnce(&mut Room) -> u64) -> Self {
        let mut after = before.clone();
        Self { answer: call(&mut after), before, after }
    }

    /// Holds it to what is wanted; W words of the work space are zero after an answer and after 9. The refusal's number, or 0, or the last place of a tally for absent.
    pub fn hold(self, wanted: Wanted, w: usize, lent: &dyn std::fmt::Debug) -> usize {
        let mut left = self.before;
        let (answer, number) = match &wanted {
            Wanted::Given(answer, lists, rows) => {
                left.lists.iter_mut().zip(lists).for_each(|(list, front)| list[..front.len()].copy_from_slice(front));
                left.rows[..rows.len()].copy_from_slice(rows);
                (*answer, 0)
            }
            Wanted::Absent => (ABSENT, Tally::NONE),
            Wanted::Refused(number, index) => (code(*number, *index), *number as usize),
        };
        if [0, 9, Tally::NONE].contains(&number) {
            left.work[..w].fill(0);
        }
        let told = |code: u64| if code >> 32 == 0 || code == ABSENT { format!("{code}") } else { format!("refusal {} at {}", code >> 32, code as u32) };
        assert!(self.answer == answer, "the entry answers {}, expected {}, on\n{}", told(self.answer), told(answer), cut(lent));
        assert!(self.after == left, "{} is answered, and left\n{}\nexpected\n{}\non\n{}", told(answer), cut(&self.after), cut(&left), cut(lent));
        number
    }
}

/// How many of each refusal came, of a tally by their numbers.
pub fn refused(tally: &[usize]) -> String {
    let came: Vec<String> = tally.iter().enumerate().skip(1).filter(|(_, &count)| count > 0).map(|(number, count)| format!("{number}: {count}")).collect();
    if came.is_empty() { "none".to_string() } else { came.join(", ") }
}

/// How many calls were answered, how many with each refusal, and how many with none.
#[derive(Default)]
pub struct Tally(pub [usize; 15]);

impl Tally {
    pub const NONE: usize = 14;

    /// Of a run of some thousands, each refusal that the entry has must have been met.
    pub fn say(&self, what: &str, gives: &[usize]) {
        let all: usize = self.0.iter().sum();
        let none = if self.0[Self::NONE] > 0 { format!(", {} absent", self.0[Self::NONE]) } else { String::new() };
        println!("{what}: {all} calls, no difference; {} answers{none}, refusals {}", self.0[0], refused(&self.0[..Self::NONE]));
        let missed: Vec<&usize> = gives.iter().filter(|&&n| self.0[n] == 0).collect();
        assert!(all < 5000 || missed.is_empty(), "{what}: no call was answered with {missed:?}");
    }
}
