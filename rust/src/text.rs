//! A job as text, a plan as text.
use crate::calls;

/// As many bytes as any printed text takes, at most.
pub const MOST_TEXT: usize = 65_536;

/// What the planning program prints for a job's text: the lines of its plan, or the line `N,number,index` of a job that is refused or of a malformed line.
/// The bytes are ASCII.
///
/// ```
/// let job = b"H,20,0,1048576\nB,0,0,19\nI,0,2,3,0,0,-,-\nI,0,6,7,0,0,-,-\nL,8,8\nL,4,4\nA,0,0\nA,1,1\n";
/// assert_eq!(slots::print_text(job), b"C,0,8,8\nL,0,0\nL,1,0\nG,0,2,3\nG,1,6,7\nT,1,1,1,8\n");
/// assert_eq!(slots::print_text(b"no job\n"), b"N,11,0\n");
/// ```
#[must_use]
pub fn print_text(text: &[u8]) -> Vec<u8> {
    let mut out = vec![0; MOST_TEXT];
    let n = calls::print_text(text, &mut out).expect("no text is longer than that");
    out.truncate(n as usize);
    out
}

/// The same in a lent list, from its start on: how many bytes.
///
/// # Errors
/// [`Kind::Space`](crate::Kind::Space) where the list is shorter than the text; it is left as it was. Nothing else is refused.
pub fn print_text_in(text: &[u8], out: &mut [u8]) -> Result<usize, crate::Refusal> {
    calls::print_text(text, out).map(|n| n as usize)
}
