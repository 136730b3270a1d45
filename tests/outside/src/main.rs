//! Calls every exported function of the archive on random and on chosen inputs, and compares with an implementation of its own.
//!
//!     outside [--only FAMILY,..] [--except FAMILY,..] [--seed N] [--cases N] [--scale PERCENT] [--show] [--reference]
#![allow(unexpected_cfgs)]

mod archive;
mod calls;
mod example;
mod families;
mod fence;
mod grouping;
mod make;
mod random;
mod reference;

use calls::Caller;
use families::{Family, FAMILIES};
use random::Random;
use std::time::Instant;

struct Options {
    only: Vec<String>,
    except: Vec<String>,
    seed: u64,
    cases: Option<u64>,
    scale: u64,
    show: bool,
    reference: bool,
}

fn options() -> Options {
    let mut o = Options { only: vec![], except: vec![], seed: 1, cases: None, scale: 100, show: false, reference: false };
    let mut arguments = std::env::args().skip(1);
    while let Some(name) = arguments.next() {
        let mut value = || arguments.next().unwrap_or_else(|| panic!("{name} wants a value"));
        let names = |list: String| list.split(',').map(str::to_string).collect();
        match name.as_str() {
            "--only" => o.only = names(value()),
            "--except" => o.except = names(value()),
            "--seed" => o.seed = value().parse().expect("a number"),
            "--cases" => o.cases = Some(value().parse().expect("a number")),
            "--scale" => o.scale = value().parse().expect("a number"),
            "--show" => o.show = true,
            "--reference" => o.reference = true,
            other => panic!("what is {other}?"),
        }
    }
    o
}

/// Every function of the header, and whether the archive has it.
fn functions() -> [(&'static str, bool); 12] {
    [
        ("naburain_check", archive::CHECK.is_some()),
        ("naburain_lookup", archive::LOOKUP.is_some()),
        ("naburain_word", archive::WORD.is_some()),
        ("naburain_probe", archive::PROBE.is_some()),
        ("naburain_union_scan_line", archive::UNION_SCAN_LINE.is_some()),
        ("naburain_union_active_interval", archive::UNION_ACTIVE_INTERVAL.is_some()),
        ("naburain_intersection_twin_heap", archive::INTERSECTION_TWIN_HEAP.is_some()),
        ("naburain_intersection_probing", archive::INTERSECTION_PROBING.is_some()),
        ("naburain_ask", archive::ASK.is_some()),
        ("naburain_to_intervals", archive::TO_INTERVALS.is_some()),
        ("naburain_to_numbers", archive::TO_NUMBERS.is_some()),
        ("naburain_build", archive::BUILD.is_some()),
    ]
}

/// Case i of a family is drawn from seed + i, so that a failure's seed with one case is that case again.
fn run(family: &'static Family, caller: &mut Caller, options: &Options) -> bool {
    let scaled = if family.cases == 1 { 1 } else { (family.cases * options.scale).div_ceil(100) };
    let cases = options.cases.unwrap_or(scaled);
    let (before, began) = (caller.calls, Instant::now());
    caller.family = &family.name;
    for seed in options.seed..options.seed + cases {
        caller.seed = seed;
        if let Err(failure) = (family.run)(caller, &mut Random::new(seed)) {
            println!("{:<14} FAILED: {failure}", family.name);
            return false;
        }
    }
    println!("{:<14} {:>8} cases {:>9} calls {:>7.1} s", family.name, cases, caller.calls - before, began.elapsed().as_secs_f64());
    true
}

fn main() {
    let options = options();
    println!("reference      {:>8} facts of the example, of sets and of the rules", example::run() + grouping::run());
    if options.reference {
        return;
    }
    fence::watch();
    let mut failures = 0;
    for (name, there) in functions() {
        if !there {
            println!("missing        FAILED: {name} is not in the archive");
            failures += 1;
        }
    }
    let mut caller = Caller::new();
    caller.show = options.show;
    for name in options.only.iter().chain(&options.except) {
        assert!(FAMILIES.iter().any(|family| family.name == name), "no family is called {name}");
    }
    let named = |names: &[String], family: &Family| names.iter().any(|name| name == family.name);
    let chosen = |family: &&Family| (options.only.is_empty() || named(&options.only, family)) && !named(&options.except, family);
    for family in FAMILIES.iter().filter(chosen) {
        failures += usize::from(!run(family, &mut caller, &options));
    }
    let counts: Vec<String> = caller.expected.iter().enumerate().map(|(number, count)| format!("{number}: {count}")).collect();
    println!("refusals       {}", counts.join(", "));
    println!("outside        {} calls, {failures} failed", caller.calls);
    std::process::exit(i32::from(failures > 0));
}
