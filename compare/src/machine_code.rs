//! Follows a small function of the library through its disassembly, with some arguments known, and tells on which of
//! the others each conditional jump and move depends.
//!
//! Of a value that is not known only the arguments are kept on which it may depend: a dependence may be told where
//! there is none, but none is overlooked. Where a jump is not decided by what is known, both ways are followed. A
//! call, a value read from memory that is not a constant, and any instruction not named here are errors.

use std::collections::{BTreeMap, BTreeSet};

/// On which arguments something may depend, a bit for each.
pub type Arguments = u8;

/// What a register holds: a number, or something that depends on arguments.
#[derive(Clone, Copy, Debug, PartialEq, Eq, PartialOrd, Ord)]
pub enum Value {
    Known(u64),
    Of(Arguments),
}

use Value::{Known, Of};

impl Value {
    fn arguments(self) -> Arguments {
        match self {
            Known(_) => 0,
            Of(arguments) => arguments,
        }
    }

    /// The lowest bytes.
    fn cut(self, bytes: u32) -> Value {
        match self {
            Known(n) if bytes < 8 => Known(n & ((1 << (8 * bytes)) - 1)),
            other => other,
        }
    }
}

/// The general registers by their names of eight, four and two bytes and of one.
const REGISTERS: [[&str; 4]; 16] = [
    ["rax", "eax", "ax", "al"],
    ["rcx", "ecx", "cx", "cl"],
    ["rdx", "edx", "dx", "dl"],
    ["rbx", "ebx", "bx", "bl"],
    ["rsp", "esp", "sp", "spl"],
    ["rbp", "ebp", "bp", "bpl"],
    ["rsi", "esi", "si", "sil"],
    ["rdi", "edi", "di", "dil"],
    ["r8", "r8d", "r8w", "r8b"],
    ["r9", "r9d", "r9w", "r9b"],
    ["r10", "r10d", "r10w", "r10b"],
    ["r11", "r11d", "r11w", "r11b"],
    ["r12", "r12d", "r12w", "r12b"],
    ["r13", "r13d", "r13w", "r13b"],
    ["r14", "r14d", "r14w", "r14b"],
    ["r15", "r15d", "r15w", "r15b"],
];
/// The sixteen vector registers stand behind the general ones.
const VECTORS: usize = 16;
/// Where the C interface passes the first six words, the place of a large answer before all others.
const PASSED: [usize; 6] = [7, 6, 2, 1, 8, 9];

/// A register's place and its bytes.
fn register(name: &str) -> Option<(usize, u32)> {
    if let Some(number) = name.strip_prefix("xmm") {
        return Some((VECTORS + number.parse::<usize>().ok()?, 16));
    }
    REGISTERS.iter().enumerate().find_map(|(place, names)| {
        let narrower = names.iter().position(|&known| known == name)?;
        Some((place, 8 >> narrower))
    })
}

fn number(text: &str) -> Option<u64> {
    match text.strip_prefix("0x") {
        Some(digits) => u64::from_str_radix(digits, 16).ok(),
        None => text.parse().ok(),
    }
}

/// An instruction: its place, its name, and its operands as they are written.
#[derive(Clone, Debug, PartialEq, Eq)]
pub struct Instruction {
    pub place: u64,
    pub name: String,
    pub operands: Vec<String>,
}

/// The instruction on a line of a disassembly, if there is one.
fn instruction(line: &str) -> Option<Instruction> {
    let (place, text) = line.split_once(":\t")?;
    let place = u64::from_str_radix(place.trim(), 16).ok()?;
    let text = text.split(['#', '<']).next()?.trim();
    let (name, operands) = text.split_once(' ').unwrap_or((text, ""));
    let operands = operands
        .split(',')
        .map(|operand| operand.trim().to_string());
    Some(Instruction {
        place,
        name: name.to_string(),
        operands: operands.filter(|operand| !operand.is_empty()).collect(),
    })
}

/// The instructions of a function, from what `objdump -d --no-show-raw-insn -M intel` writes.
pub fn function(disassembly: &str, name: &str) -> Vec<Instruction> {
    let head = format!(" <{name}>:");
    let lines = disassembly
        .lines()
        .skip_while(|line| !line.ends_with(&head));
    let body = lines.skip(1).take_while(|line| !line.is_empty());
    body.filter_map(instruction).collect()
}

/// What the flags come from: two numbers that were compared, or anything that depends on arguments.
#[derive(Clone, Copy, Debug, PartialEq, Eq, PartialOrd, Ord)]
enum Flags {
    Compared(u64, u64),
    Of(Arguments),
}

impl Flags {
    /// Those of a comparison.
    fn compared(a: Value, b: Value) -> Flags {
        match (a, b) {
            (Known(a), Known(b)) => Flags::Compared(a, b),
            _ => Flags::Of(a.arguments() | b.arguments()),
        }
    }

    /// Those of a test for common bits: as if these were compared with 0.
    fn tested(a: Value, b: Value) -> Flags {
        match (a, b) {
            (Known(a), Known(b)) => Flags::Compared(a & b, 0),
            _ => Flags::compared(a, b),
        }
    }

    fn arguments(self) -> Arguments {
        match self {
            Flags::Compared(..) => 0,
            Flags::Of(arguments) => arguments,
        }
    }

    /// Does a condition hold, where that is known?
    fn decide(self, condition: &str) -> Option<bool> {
        let Flags::Compared(a, b) = self else {
            return None;
        };
        match condition {
            "e" => Some(a == b),
            "ne" => Some(a != b),
            "a" => Some(a > b),
            "ae" => Some(a >= b),
            "b" => Some(a < b),
            "be" => Some(a <= b),
            _ => None,
        }
    }
}

/// What an instruction does, as far as it matters here.
enum Kind<'a> {
    Return,
    Jump,
    JumpIf(&'a str),
    MoveIf,
    SetIf,
    Compare,
    Test,
    /// Puts its second operand into the first.
    Copy,
    /// Adds up registers and numbers.
    Address,
    /// Calculates from its operands, and sets the flags.
    Calculate,
    /// Likewise; of a register and itself it is 0.
    Exclude,
    /// Likewise, by a number above 0: by a register the flags might stay as they are.
    Shift,
    /// Likewise, from the flags too.
    Carry,
}

/// The conditions that ask the flags alone.
const CONDITIONS: [&str; 16] = [
    "e", "ne", "a", "ae", "b", "be", "g", "ge", "l", "le", "s", "ns", "o", "no", "p", "np",
];

fn kind(name: &str) -> Option<Kind<'_>> {
    Some(match name {
        "ret" => Kind::Return,
        "jmp" => Kind::Jump,
        "cmp" => Kind::Compare,
        "test" => Kind::Test,
        "mov" | "movzx" | "movss" | "movsd" | "movlps" | "movups" => Kind::Copy,
        "lea" => Kind::Address,
        "add" | "sub" | "and" | "or" | "imul" => Kind::Calculate,
        "xor" => Kind::Exclude,
        "shl" | "shr" => Kind::Shift,
        "adc" | "sbb" => Kind::Carry,
        _ if name.starts_with("cmov") => Kind::MoveIf,
        _ if name.starts_with("set") => Kind::SetIf,
        _ => Kind::JumpIf(
            name.strip_prefix('j')
                .filter(|of| CONDITIONS.contains(of))?,
        ),
    })
}

/// What is known before an instruction.
#[derive(Clone, Debug, PartialEq, Eq, PartialOrd, Ord)]
struct State {
    place: u64,
    registers: Vec<Value>,
    flags: Flags,
}

impl State {
    /// The value of an operand that is read.
    fn read(&self, operand: &str) -> Result<Value, String> {
        if let Some((place, bytes)) = register(operand) {
            return Ok(self.registers[place].cut(bytes));
        }
        if operand.contains("[rip") {
            return Ok(Of(0));
        }
        let unknown = || format!("before {:x}: {operand} cannot be read", self.place);
        number(operand).map(Known).ok_or_else(unknown)
    }

    /// On what the operands depend, all of them read.
    fn arguments(&self, operands: &[String]) -> Result<Arguments, String> {
        operands
            .iter()
            .try_fold(0, |all, operand| Ok(all | self.read(operand)?.arguments()))
    }

    /// On what the registers of an address depend.
    fn address(&self, operand: &str) -> Arguments {
        let words = operand.split(|c: char| !c.is_ascii_alphanumeric());
        let registers = words.filter_map(register);
        registers.fold(0, |all, (place, _)| all | self.registers[place].arguments())
    }

    /// Puts a value into a register, parts of which may stay. What goes to memory is not read again.
    fn write(&mut self, operand: &str, value: Value) -> Result<(), String> {
        if operand.contains('[') {
            return Ok(());
        }
        let unknown = || format!("before {:x}: {operand} cannot be written", self.place);
        let (place, bytes) = register(operand).ok_or_else(unknown)?;
        let old = self.registers[place].arguments();
        self.registers[place] = match bytes {
            4 | 8 => value.cut(bytes),
            _ => Of(old | value.arguments()),
        };
        Ok(())
    }

    /// Calculates from the operands into the first of them.
    fn calculate(&mut self, operands: &[String], more: Arguments) -> Result<(), String> {
        let arguments = self.arguments(operands)? | more;
        self.flags = Flags::Of(arguments);
        self.write(&operands[0], Of(arguments))
    }

    /// Goes over an instruction that is not conditional and leads to the next.
    fn go_over(&mut self, kind: Kind, operands: &[String]) -> Result<(), String> {
        let [written, read, ..] = operands else {
            return Err(format!("before {:x}: two operands are missing", self.place));
        };
        match kind {
            Kind::Compare => self.flags = Flags::compared(self.read(written)?, self.read(read)?),
            Kind::Test => self.flags = Flags::tested(self.read(written)?, self.read(read)?),
            Kind::Copy => self.write(written, self.read(read)?)?,
            Kind::Address => self.write(written, Of(self.address(read)))?,
            Kind::Exclude if written == read => {
                self.flags = Flags::Compared(0, 0);
                self.write(written, Known(0))?;
            }
            Kind::Carry => self.calculate(operands, self.flags.arguments())?,
            Kind::Shift if number(read).is_none_or(|by| by == 0) => {
                return Err(format!("before {:x}: a shift by {read}", self.place));
            }
            _ => self.calculate(operands, 0)?,
        }
        Ok(())
    }

    /// The same where a jump leads.
    fn jumped(&self, operands: &[String]) -> Result<State, String> {
        let target = operands.first().map_or("", String::as_str);
        let unknown = |_| format!("before {:x}: a jump to {target}", self.place);
        Ok(State {
            place: u64::from_str_radix(target, 16).map_err(unknown)?,
            ..self.clone()
        })
    }
}

/// A conditional jump or move, and on which arguments it may depend, whichever way led to it.
#[derive(Clone, Copy, Debug, PartialEq, Eq)]
pub struct Conditional {
    pub is_jump: bool,
    pub arguments: Arguments,
}

/// What was met on all ways through a function: the places of its instructions, and of them the conditional ones.
#[derive(Debug, Default)]
pub struct Followed {
    pub places: BTreeSet<u64>,
    pub conditionals: BTreeMap<u64, Conditional>,
}

impl Followed {
    fn meet(&mut self, place: u64, is_jump: bool, arguments: Arguments) {
        let met = Conditional {
            is_jump,
            arguments: 0,
        };
        self.conditionals.entry(place).or_insert(met).arguments |= arguments;
    }

    /// Goes over one instruction, and answers what is known before each that may come next.
    fn step(&mut self, met: &Instruction, mut state: State) -> Result<Vec<State>, String> {
        let operands = &met.operands;
        let flags = state.flags.arguments();
        let unknown = || format!("{:x}: {} is not known", met.place, met.name);
        self.places.insert(met.place);
        match kind(&met.name).ok_or_else(unknown)? {
            Kind::Return => return Ok(Vec::new()),
            Kind::Jump => return Ok(vec![state.jumped(operands)?]),
            Kind::JumpIf(condition) => {
                self.meet(met.place, true, flags);
                let there = state.jumped(operands)?;
                return Ok(match state.flags.decide(condition) {
                    Some(true) => vec![there],
                    Some(false) => vec![state],
                    None => vec![there, state],
                });
            }
            Kind::MoveIf => {
                self.meet(met.place, false, flags);
                let arguments = state.arguments(operands)? | flags;
                state.write(&operands[0], Of(arguments))?;
            }
            Kind::SetIf => state.write(&operands[0], Of(flags))?,
            other => state.go_over(other, operands)?,
        }
        Ok(vec![state])
    }
}

/// Follows a function on all ways that it may take with these first arguments.
pub fn follow(function: &[Instruction], arguments: &[Value]) -> Result<Followed, String> {
    let mut registers = vec![Of(0); 2 * VECTORS];
    for (&place, &value) in PASSED.iter().zip(arguments) {
        registers[place] = value;
    }
    let begin = State {
        place: function.first().ok_or("there is no such function")?.place,
        registers,
        flags: Flags::Of(0),
    };
    let (mut followed, mut seen, mut open) = (Followed::default(), BTreeSet::new(), vec![begin]);
    while let Some(state) = open.pop() {
        if !seen.insert(state.clone()) {
            continue;
        }
        let at = function.iter().position(|met| met.place == state.place);
        let at = at.ok_or_else(|| format!("{:x} is not in the function", state.place))?;
        let place = function.get(at + 1).map_or(u64::MAX, |next| next.place);
        open.extend(followed.step(&function[at], State { place, ..state })?);
    }
    Ok(followed)
}

#[cfg(test)]
mod tests {
    use super::*;

    const BASIC: Arguments = 1;
    const DEALER: Arguments = 2;

    /// The place of the answer, basic points, dealer, and a win type that is known.
    fn followed(text: &str, win_type: u64) -> Result<Followed, String> {
        let disassembly = format!("0000000000000000 <pay>:\n{text}\n\n   0:\tud2\n");
        let arguments = [Of(0), Of(BASIC), Of(DEALER), Known(win_type)];
        follow(&function(&disassembly, "pay"), &arguments)
    }

    fn jumps(text: &str, win_type: u64) -> Vec<(u64, Arguments)> {
        let met = followed(text, win_type).unwrap().conditionals;
        met.iter()
            .filter(|(_, one)| one.is_jump)
            .map(|(&place, one)| (place, one.arguments))
            .collect()
    }

    /// By tsumo, win type 1, the basic points are answered; by ron the dealer is asked.
    const ASKED: &str = "   0:\tcmp    cl,0x1\n   3:\tje     14 <pay+0x14>\n   5:\tmov    eax,edx\n   7:\tand    eax,0x1\n   \
        a:\tje     14 <pay+0x14>\n   c:\tlea    esi,[rsi+rsi*2]\n  14:\tmov    DWORD PTR [rdi],esi\n  16:\tret";

    #[test]
    fn a_jump_depends_on_the_dealer_only_where_it_is_reached() {
        assert_eq!(jumps(ASKED, 0), [(0x3, 0), (0xa, DEALER)]);
        assert_eq!(jumps(ASKED, 1), [(0x3, 0)]);
        assert!(!followed(ASKED, 1).unwrap().places.contains(&0xc));
    }

    #[test]
    fn both_ways_are_followed_where_a_jump_is_not_decided() {
        let text = "   0:\tcmp    esi,0x251c0\n   6:\tjbe    9 <pay+0x9>\n   8:\tret\n   9:\ttest   dl,0x1\n   \
            c:\tjne    8 <pay+0x8>\n   e:\tret";
        assert_eq!(jumps(text, 0), [(0x6, BASIC), (0xc, DEALER)]);
        assert_eq!(followed(text, 0).unwrap().places.len(), 6);
    }

    #[test]
    fn a_factor_by_arithmetic_is_no_jump() {
        let text = "   0:\tmovzx  eax,dl\n   3:\tlea    eax,[rax*2+0x4]\n   a:\timul   eax,esi\n   d:\tret";
        assert!(followed(text, 0).unwrap().conditionals.is_empty());
    }

    #[test]
    fn what_the_dealer_was_made_into_still_depends_on_him() {
        let text = "   0:\tcmp    dl,0x1\n   3:\tsbb    eax,eax\n   5:\tadd    eax,esi\n   7:\tjs     b <pay+0xb>\n   \
            9:\tcmovne ecx,eax\n   b:\tret";
        assert_eq!(jumps(text, 0), [(0x7, BASIC | DEALER)]);
        let moved = followed(text, 0).unwrap().conditionals[&0x9];
        assert_eq!((moved.is_jump, moved.arguments), (false, BASIC | DEALER));
    }

    #[test]
    fn what_is_not_known_is_an_error() {
        for line in [
            "mov    eax,DWORD PTR [rsp+0x8]",
            "call   20 <other>",
            "jmp    rax",
            "jrcxz  3 <pay+0x3>",
            "add    ah,0x1",
            "shl    eax,cl",
        ] {
            let text = format!("   0:\t{line}\n   3:\tret");
            assert!(followed(&text, 0).is_err(), "{line}");
        }
        assert!(followed("", 0).is_err());
    }
}
