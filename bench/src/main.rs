//! Times the component and slots.rs on the same inputs, in one run. Each answer is compared before it is timed, and the run stops where they differ.
//! Without arguments: whole jobs, with the table written to docs/BENCHMARK.md. `parts`: the graph and fitting alone. Any other argument is the name of one job.
#[allow(dead_code)]
#[path = "../../tests/compare/src/carry.rs"]
mod carry;
#[allow(dead_code)]
#[path = "../../tests/compare/src/cases.rs"]
mod cases;
mod entries;
mod fits;
mod functions;
mod graphs;
#[allow(dead_code)]
#[path = "../../tests/compare/src/job.rs"]
mod job;
mod jobs;
#[path = "../../tests/compare/src/layout.rs"]
mod layout;
#[allow(dead_code)]
#[path = "../../tests/compare/src/spills.rs"]
mod spills;
mod timing;
#[path = "../../tests/compare/src/touching.rs"]
mod touching;
mod whole;

/// Where the table goes, from the repository's root, and what stands around it.
const PAGE: &str = "docs/BENCHMARK.md";
const ABOUT: &str = include_str!("about.md");

fn machine() -> String {
    let cores = std::thread::available_parallelism().map_or(1, usize::from);
    format!("{} on {}, {cores} cores", std::env::consts::ARCH, std::env::consts::OS)
}

fn main() {
    match std::env::args().nth(1).as_deref() {
        None => {
            let page = ABOUT.replace("MACHINE", &machine()).replace("TABLE", &whole::run(None));
            std::fs::write(PAGE, page).expect("run in the repository's root");
        }
        Some("parts") => {
            println!("{:<34} {:>12} {:>12} {:>7}", "input", "slots.rs", "component", "ratio");
            graphs::run();
            fits::run();
        }
        name => drop(whole::run(name)),
    }
}
