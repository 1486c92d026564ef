//! Ours beside the Rust: `sides compare`, `sides bench`, `sides choices`.

mod aims;
mod bench;
mod calls;
#[cfg(choice)]
mod choosing;
mod clib;
#[cfg(choice)]
mod fields;
mod flavours;
#[cfg(choice)]
mod made;
mod random;
#[cfg(choice)]
mod rivals;
mod scripts;
mod single;
mod smaller;

use scripts::{Scripts, name_of};
use single::Single;
use std::time::Instant;

pub fn main() {
    match std::env::args().nth(1).as_deref() {
        Some("bench") => {
            bench::bench();
            #[cfg(choice)]
            {
                println!();
                choosing::print();
            }
        }
        #[cfg(choice)]
        Some("choices") => choosing::print(),
        _ => compare(),
    }
}

/// Compare everything, then say what was compared.
fn compare() {
    let start = Instant::now();
    let single = Single::run();
    println!("{} calls of single functions:", single.calls());
    for (name, calls) in &single.counts {
        println!("  {name} {calls}");
    }
    let scripts = Scripts::run();
    println!(
        "{} calls in {} scripts, {} runs with every beginning, {} refused runs (13, 16):",
        scripts.calls, scripts.scripts, scripts.runs, scripts.refused
    );
    for (name, seed, calls) in &scripts.flavours {
        println!("  {name} (seed {seed}) {calls}");
    }
    println!("  by call, in brackets how many were refused by which number:");
    for (n, (calls, refused)) in scripts.by_call.iter().enumerate() {
        let said: Vec<_> = refused.iter().map(|(no, n)| format!("{no}: {n}")).collect();
        println!("    {} {calls} ({})", name_of(n), said.join(", "));
    }
    let behind = scripts.behind;
    println!("  probes sent that are due before their instant: {behind}");
    #[cfg(choice)]
    fields::Fields::run().print();
    println!(
        "no difference; {:.1} seconds",
        start.elapsed().as_secs_f64()
    );
}
