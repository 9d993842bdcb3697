//! Disassembles the library and tells on what the conditional jumps of the exported payment function depend, by ron
//! and by tsumo. It exits with status 1 where one of them depends on the dealer by ron.

use compare::arguments;
use compare::library::{RON, TSUMO};
use compare::machine_code::{self, Arguments, Followed, Instruction, Value};
use std::process::{Command, ExitCode};

const USAGE: &str = "usage: jumps [ARCHIVE]";
const ARCHIVE: &str = "target/staticlib/libziwhakemo.a";
const FUNCTION: &str = "ziwhakemo_payment";

const BASIC_POINTS: Arguments = 1;
const DEALER: Arguments = 2;

/// What objdump, of the GNU binutils, writes of an archive.
fn disassembly(archive: &str) -> String {
    let output = Command::new("objdump")
        .args(["-d", "--no-show-raw-insn", "-M", "intel", archive])
        .output()
        .expect("objdump, of the GNU binutils");
    assert!(output.status.success(), "objdump could not read {archive}");
    String::from_utf8_lossy(&output.stdout).into_owned()
}

/// On what something depends, in words. What depends on nothing else is decided by the win type, which is known.
fn in_words(arguments: Arguments) -> &'static str {
    match (arguments & BASIC_POINTS != 0, arguments & DEALER != 0) {
        (false, false) => "decided by the win type",
        (true, false) => "depends on basic points",
        (false, true) => "depends on THE DEALER",
        (true, true) => "depends on basic points and THE DEALER",
    }
}

/// The function, followed with a win type that is known. Before the arguments comes the place of the answer.
fn follow(function: &[Instruction], win_type: u8) -> Followed {
    let arguments = [
        Value::Of(0),
        Value::Of(BASIC_POINTS),
        Value::Of(DEALER),
        Value::Known(win_type.into()),
    ];
    machine_code::follow(function, &arguments).expect("a function that can be followed")
}

/// An instruction as it is printed, with a remark where it is conditional.
fn line(met: &Instruction, followed: &Followed) -> String {
    let operands = met.operands.join(",");
    let text = format!("{:5x}  {:<7}{operands}", met.place, met.name);
    match followed.conditionals.get(&met.place) {
        Some(found) => format!("{text:<40} <- {}", in_words(found.arguments)),
        None => text.trim_end().to_string(),
    }
}

/// How many conditional jumps, or moves, depend on the dealer.
fn on_dealer(followed: &Followed, jumps: bool) -> usize {
    let met = followed.conditionals.values();
    met.filter(|met| met.is_jump == jumps && met.arguments & DEALER != 0)
        .count()
}

/// Prints what is reached, and how much of it depends on the dealer.
fn print(function: &[Instruction], followed: &Followed, name: &str) {
    let reached = |met: &&Instruction| followed.places.contains(&met.place);
    println!(
        "{FUNCTION} by {name}: {} instructions",
        followed.places.len()
    );
    for met in function.iter().filter(reached) {
        println!("{}", line(met, followed));
    }
    println!(
        "conditional jumps on the dealer: {}",
        on_dealer(followed, true)
    );
    println!(
        "conditional moves on the dealer: {}",
        on_dealer(followed, false)
    );
    println!();
}

fn main() -> ExitCode {
    arguments::run(USAGE, |words| {
        let archive = match words {
            [] => ARCHIVE,
            [archive] => archive,
            _ => return None,
        };
        let function = machine_code::function(&disassembly(archive), FUNCTION);
        let by_ron = follow(&function, RON);
        print(&function, &by_ron, "ron");
        print(&function, &follow(&function, TSUMO), "tsumo");
        Some(ExitCode::from(u8::from(on_dealer(&by_ron, true) > 0)))
    })
}
