//! Instructions of each call, counted by callgrind.

use super::{sizes, Memory, Work};
use crate::calls::Answer;
use crate::library::Library;
use crate::perform::make;
use crate::reference::Model;
use model::vectors::Call;
use std::env;
use std::process::Command;

/// Runs this program under callgrind for each call and size, on either side, and prints the counts.
pub fn print_counts() {
    println!("{:<12}{:<9}{:>16}{:>16}{:>9}", "call", "size", "library", "model", "ratio");
    for size in sizes::ALL {
        for &call in size.calls {
            let [library, model] = ["library", "model"].map(|side| count(side, size.name, call));
            let ratio = library as f64 / model as f64;
            println!("{:<12}{:<9}{library:>16}{model:>16}{ratio:>9.2}", call.name(), size.name);
        }
    }
}

/// The instructions of one call, without those of the program around it.
fn count(side: &str, size: &str, call: Call) -> u64 {
    let function = match side {
        "library" => format!("doorplate_{}", call.name()),
        _ => "counted_model".to_owned(),
    };
    let output = Command::new("valgrind")
        .args(["--tool=callgrind", "--callgrind-out-file=/dev/null"])
        .arg(format!("--toggle-collect={function}"))
        .arg(env::current_exe().expect("this program"))
        .args(["--once", side, size, call.name()])
        .output()
        .expect("valgrind");
    let said = String::from_utf8_lossy(&output.stderr);
    let collected = said.lines().find_map(|line| line.split("Collected : ").nth(1));
    collected.and_then(|number| number.trim().parse().ok()).expect("what callgrind counted")
}

/// Makes one call once, on one side, and says whether there is such a call.
pub fn once(side: &str, size: &str, call: &str) -> bool {
    let Some(work) = sizes::find(size, call) else {
        return false;
    };
    let mut memory = Memory::default();
    let answer = match side {
        "library" => make(&Library, work.call, work.lent(&mut memory)),
        _ => counted_model(&work, &mut memory),
    };
    assert!(answer.is_accepted());
    true
}

/// The model's call, in a function that callgrind finds by its name.
#[no_mangle]
#[inline(never)]
fn counted_model(work: &Work, memory: &mut Memory) -> Answer {
    make(&Model, work.call, work.lent(memory))
}
