//! A job as text, a plan as text.
use slots::{print_text, print_text_in, Kind, Refusal, MOST_TEXT};

const JOB: &[u8] = b"H,20,0,1048576\nB,0,0,19\nI,0,2,3,0,0,-,-\nI,0,6,7,0,0,-,-\nL,8,8\nL,4,4\nA,0,0\nA,1,1\n";
const PLAN: &[u8] = b"C,0,8,8\nL,0,0\nL,1,0\nG,0,2,3\nG,1,6,7\nT,1,1,1,8\n";

#[test]
fn a_plan() {
    assert_eq!(print_text(JOB), PLAN);
}

#[test]
fn a_list_as_long_as_the_text_and_one_that_is_longer() {
    for more in [0, 1, MOST_TEXT] {
        let mut out = vec![0x5a; PLAN.len() + more];
        assert_eq!(print_text_in(JOB, &mut out), Ok(PLAN.len()));
        assert_eq!(&out[..PLAN.len()], PLAN);
        assert!(out[PLAN.len()..].iter().all(|&b| b == 0x5a));
    }
}

#[test]
fn a_shorter_list_is_left_as_it_was() {
    for room in 0..PLAN.len() {
        let mut out = vec![0x5a; room];
        assert_eq!(print_text_in(JOB, &mut out), Err(Refusal { kind: Kind::Space, index: 0 }));
        assert!(out.iter().all(|&b| b == 0x5a));
    }
}

#[test]
fn a_refused_job_is_a_line() {
    assert_eq!(print_text(b"H,20,0,1\nB,0,0,19\nE,0,0\nE,0,1\n"), b"N,3,1\n");
    assert_eq!(print_text(b"H,20,0,1048577\nB,0,0,19\n"), b"N,1,0\n");
    assert_eq!(print_text(b"H,20,0,1\nB,0,0\n"), b"N,11,1\n");
    assert_eq!(print_text(b"\xff\n"), b"N,11,0\n");
    assert_eq!(print_text(b"H,0,0,0\nB,0,0,0\nL,8,3\n"), b"N,12,0\n");
    assert_eq!(print_text(b"H,0,0,0\nB,0,0,0\nL,2147483647,1\nL,1,1\n"), b"N,13,1\n");
}

#[test]
fn a_depth_has_its_padding() {
    assert_eq!(print_text(b"H,0,0,0\nB,0,0,0\nL,12,8\n"), b"C,0,12,8\nL,0,0\nT,1,0,0,16\n");
}
