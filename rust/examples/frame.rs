//! Lays out the frame of `examples/frame.job`, three locals of which two share a cell: where each local lies, from the frame base, and how many
//! bytes the frame takes on a stack that is kept aligned to 16.
use slots::{Inst, Job, Refusal};

const STACK_ALIGN: u64 = 16;

fn main() -> Result<(), Refusal> {
    let mut job = Job::new(20, 0);
    job.block(0, 0, 19);
    let (first, second) = (job.inst(Inst::at(0, 2, 3)), job.inst(Inst::at(0, 6, 7)));
    let locals = [job.local(8, 8), job.local(4, 4), job.local(20, 16)];
    for (inst, local) in [(first, locals[0]), (second, locals[1]), (first, locals[2]), (second, locals[2])] {
        job.address(inst, local);
    }

    let plan = job.share()?;
    for local in locals {
        println!("local {local} at {}", plan.offsets()[plan.local(local).unwrap()]);
    }
    // the depth has the padding between cells; rounding up the frame is left to the caller
    println!("depth {}, frame {}", plan.depth(), plan.depth().next_multiple_of(STACK_ALIGN));
    Ok(())
}
