// Takes slots.rs from the path in SLOTS_RS, unchanged, and puts a module behind it through which its private functions can be called,
// and a function that has the text of `share` up to where it fits.
// Links the static library of the component from the folder in SLOTS_LIB, where that is given.
use std::{env, fs, path::PathBuf};

const PROBE: &str = r#"
pub mod probe {
    use super::*;
    pub fn merged(pieces: Vec<Range>) -> Vec<Range> { super::merged(pieces) }
    pub fn union(one: &[Range], two: &[Range]) -> Vec<Range> { super::union(one, two) }
    pub fn clashes(one: &[Range], two: &[Range]) -> bool { super::clashes(one, two) }
    pub fn joined(pieces: &mut Vec<Range>, piece: Range) { super::joined(pieces, piece) }
    pub fn components(edges: &[Vec<usize>]) -> (Vec<usize>, Vec<Vec<usize>>) { super::components(edges) }
    pub fn flowed(edges: &[Vec<usize>], touched: &[Vec<u64>], words: usize) -> Vec<Vec<u64>> { super::flowed(edges, touched, words) }
    pub fn spread(edges: &[Vec<usize>], touched: &[Vec<u64>], passing: &[Vec<u64>], words: usize) -> Vec<Vec<u64>> { super::spread(edges, touched, passing, words) }
    pub fn settling(readers: &[Vec<usize>]) -> Vec<usize> { super::settling(readers) }
    /// Size, alignment and area of each local, then of each slot.
    pub fn fit(wants: Vec<(u32, u32, Option<Vec<Range>>)>, locals: usize, budget: usize) -> Slots {
        let slots = wants.len() - locals;
        let wants = wants.into_iter().enumerate().map(|(i, (size, align, area))| {
            let what = if i < locals { What::Local(i) } else { What::Slot(i - locals) };
            Want { what, size, align, area }
        }).collect();
        super::fit(wants, locals, slots, budget)
    }
    /// Of each local that is followed whether it escapes, and the registers that hold its address.
    pub fn followed(reach: &Reach) -> Vec<Option<(bool, Vec<Reg>)>> {
        reach.through.iter().map(|held| held.as_ref().map(|held| (held.escapes, held.regs.clone()))).collect()
    }
    /// The areas of locals: of each that is followed whether it escapes, the registers whose live pieces are its touches, its ends.
    pub fn areas(func: &Func, locals: Vec<Option<(bool, Vec<Reg>, Vec<Inst>)>>, live: &Live, order: &Order) -> Vec<Option<Vec<Range>>> {
        let carried = |(escapes, regs, ends)| Carried { regs, at: Vec::new(), ends, escapes };
        let through = locals.into_iter().map(|local| local.map(carried)).collect();
        super::areas(func, &Reach { through }, live, order)
    }
    pub fn spilled(allocation: &Allocation, slots: usize) -> Vec<Option<Reg>> { super::spilled(allocation, slots) }
    pub fn moved(allocation: &Allocation, slots: usize) -> Vec<Vec<Range>> { super::moved(allocation, slots) }
}
"#;

/// The areas that `share` wants, of all locals, then of all slots.
fn wanted(slots: &str) -> String {
    let share = slots.split_once("pub fn share(").expect("slots.rs has `share`").1;
    let (parameters, body) = share.split_once(") -> Self {").expect("`share` answers itself");
    let body = body.split_once("fit(wants,").expect("`share` ends in `fit`").0;
    format!("pub fn wanted({parameters}) -> Vec<Option<Vec<Range>>> {{{body}wants.into_iter().map(|want| want.area).collect()\n}}\n")
}

fn main() {
    println!("cargo:rerun-if-env-changed=SLOTS_RS");
    println!("cargo:rerun-if-env-changed=SLOTS_LIB");
    let path = env::var("SLOTS_RS").expect("SLOTS_RS: the path of slots.rs");
    println!("cargo:rerun-if-changed={path}");
    let text = fs::read_to_string(&path).expect("slots.rs can be read");
    let out = PathBuf::from(env::var("OUT_DIR").unwrap());
    fs::write(out.join("slots.rs"), format!("{text}{PROBE}{}", wanted(&text))).unwrap();
    let module = format!("#[allow(dead_code, unused)]\n#[path = {:?}]\npub mod slots;\n", out.join("slots.rs"));
    fs::write(out.join("module.rs"), module).unwrap();
    if let Ok(lib) = env::var("SLOTS_LIB") {
        println!("cargo:rustc-link-search=native={lib}");
    }
}
