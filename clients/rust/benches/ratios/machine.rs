//! What the figures were made on.

use std::fs::read_to_string;
use std::process::Command;
use std::thread::available_parallelism;

pub fn report() {
    let cores = available_parallelism().map_or(0, usize::from);
    let kernel = read_to_string("/proc/sys/kernel/osrelease").unwrap_or_default();
    let kernel = kernel.trim();
    let (cpu, rustc, features) = (cpu(), rustc(), features());
    let lines = [
        format!("Machine: {cpu}, {cores} cores, Linux {kernel}."),
        format!("By hand: {rustc}, opt-level 3, lto fat, one codegen unit, {features}."),
        "Proved: the whole module through LLVM at -O3, x86-64-v2.".to_string(),
        "Buffers: the same in every round, so they are in cache, but for the file of 10 MB.".to_string(),
        "Clock: in one process, the time that the thread was on a processor; through a pipe, the time that passed."
            .to_string(),
        "Rounds: what is compared runs in turn, and a ratio is taken round by round. A figure is the median of the rounds; in \
         parentheses stand the tenth and the ninetieth percentile."
            .to_string(),
    ];
    for line in lines {
        println!("- {line}");
    }
}

fn cpu() -> String {
    let text = read_to_string("/proc/cpuinfo").unwrap_or_default();
    let line = text.lines().find(|line| line.starts_with("model name"));
    let name = line.and_then(|line| line.split_once(": "));
    name.map_or("unknown", |(_, name)| name).to_string()
}

fn rustc() -> String {
    let output = Command::new("rustc").arg("--version").output();
    let text = output.map(|output| String::from_utf8_lossy(&output.stdout).trim().to_string());
    text.unwrap_or_else(|_| "rustc".to_string())
}

/// Both sides are to have the same instructions.
fn features() -> &'static str {
    match cfg!(all(target_feature = "sse4.2", not(target_feature = "avx"))) {
        true => "x86-64-v2",
        false => "not x86-64-v2, so not comparable",
    }
}
