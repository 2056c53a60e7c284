//! `item_tests`: the areas of all items of a whole job.
use crate::cases::{list, Case, Random};
use crate::job::{space, Job};
use crate::plans::{areas, rows};

/// The job of a case: points, V, the lengths of the area list, of the item list and of the work space; then the groups.
fn job(c: &[Vec<u32>]) -> Job {
    Job { points: c[0][0], v: c[0][1], budget: 0, groups: std::array::from_fn(|group| c[1 + group].clone()) }
}

pub fn lines(case: &Case) -> Vec<Option<String>> {
    let (job, head) = (job(&case.columns), &case.columns[0]);
    let [ranges, items] = rows(&areas(&job));
    let (given, lent) = (list(&ranges, head[2] as usize), list(&items, head[3] as usize));
    vec![Some(format!("{} {}:{given} |{lent} | {}", case.name, ranges.len() / 2, space(&job, head[2] as usize)))]
}

/// A random job, in lists that are longer than its answer.
pub fn random(r: &mut Random) -> String {
    let job = crate::random::random(r, 6);
    let head = vec![job.points, job.v, 128, 3 * job.items() as u32 + 3, space(&job, 128) as u32 + 1];
    let columns: Vec<Vec<u32>> = std::iter::once(head).chain(job.groups).collect();
    Case::write("random", &columns)
}
