//! Plans the job of `examples/loop.job` and prints what the planning program prints of it: a loop whose body uses one local, and two more
//! before and after it.
use slots::{Inst, Job, Refusal};

fn job() -> Job {
    let mut job = Job::new(39, 2);
    for (number, start) in [(0, 0), (1, 10), (2, 20), (3, 30)] {
        job.block(number, start, start + 9);
    }
    for (from, to) in [(0, 1), (1, 2), (2, 1), (2, 3)] {
        job.edge(from, to);
    }
    let before = job.inst(Inst::at(0, 2, 3));
    let body = job.inst(Inst::at(1, 12, 13));
    job.inst(Inst::at(2, 24, 25));
    let after = job.inst(Inst::at(3, 32, 33));
    let locals = [job.local(8, 8), job.local(16, 8), job.local(4, 4)];
    job.address(body, locals[0]);
    job.address(before, locals[1]);
    job.address(after, locals[2]);
    job
}

fn main() -> Result<(), Refusal> {
    let job = job();
    let plan = job.share()?;
    for (i, cell) in plan.cells().iter().enumerate() {
        println!("C,{i},{},{}", cell.size, cell.align);
    }
    for i in 0..job.locals.len() as u32 {
        println!("L,{i},{}", plan.local(i).unwrap());
    }
    for i in 0..job.slots.len() as u32 {
        println!("S,{i},{}", plan.slot(i).unwrap());
    }
    for i in 0..job.locals.len() as u32 {
        for range in plan.shared(i).unwrap_or_default() {
            println!("G,{i},{},{}", range.start, range.end);
        }
    }
    println!("T,{},{},{},{}", plan.cells().len(), plan.saved(), plan.probes(), plan.depth());
    Ok(())
}
