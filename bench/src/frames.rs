//! Stack frames, calls and block copies, read off a disassembly with
//! relocations as objdump prints it for x86-64.

use std::collections::HashMap;

/// A call puts the return address on the stack.
const RETURN_ADDRESS: usize = 8;

#[derive(Default)]
pub struct Function {
    /// The most bytes that it has on the stack, the return address among
    /// them.
    frame: usize,
    calls: Vec<String>,
    /// The lengths of its block copies, where they are constant.
    copies: Vec<usize>,
}

pub struct Object {
    functions: HashMap<String, Function>,
}

/// Where the reading stands in a function.
struct Reader {
    function: Function,
    depth: usize,
    /// The third argument of a call to come.
    length: Option<usize>,
}

impl Object {
    pub fn new(disassembly: &str) -> Object {
        let mut functions = HashMap::new();
        let mut name = String::new();
        let mut reader = Reader::new();
        for line in disassembly.lines() {
            if let Some(next) = function_name(line) {
                functions.insert(name, reader.function);
                name = next.to_string();
                reader = Reader::new();
            } else {
                reader.read(line);
            }
        }
        functions.insert(name, reader.function);
        Object { functions }
    }

    /// The stack of a function and all it calls, and the deepest chain of
    /// calls. Functions from outside count with the return address.
    pub fn deepest(&self, name: &str) -> (usize, Vec<String>) {
        let function = match self.functions.get(name) {
            Some(function) => function,
            None => return (RETURN_ADDRESS, vec![name.to_string()]),
        };
        let below = function.calls.iter().filter(|call| *call != name);
        let (depth, mut chain) = below
            .map(|call| self.deepest(call))
            .max_by_key(|(depth, _)| *depth)
            .unwrap_or_default();
        chain.insert(0, name.to_string());
        (function.frame + depth, chain)
    }

    pub fn has(&self, name: &str) -> bool {
        self.functions.contains_key(name)
    }

    /// The functions that copy a block of exactly so many bytes.
    pub fn copiers(&self, length: usize) -> Vec<&str> {
        let copies = |function: &Function| function.copies.contains(&length);
        let found = self.functions.iter().filter(|(_, function)| copies(function));
        let mut names: Vec<&str> = found.map(|(name, _)| name.as_str()).collect();
        names.sort_unstable();
        names
    }
}

impl Reader {
    fn new() -> Reader {
        let function = Function { frame: RETURN_ADDRESS, ..Function::default() };
        Reader { function, depth: RETURN_ADDRESS, length: None }
    }

    fn read(&mut self, line: &str) {
        if let Some((_, target)) = line.split_once("R_X86_64_PLT32") {
            self.call(target.trim());
        } else if let Some(instruction) = line.split_once(":\t").map(|(_, rest)| rest) {
            self.step(instruction.trim());
        }
    }

    fn call(&mut self, target: &str) {
        let target = target.strip_prefix(".text.").unwrap_or(target);
        let target = target.rsplit_once('-').map_or(target, |(name, _)| name);
        if target == "memcpy" || target == "memmove" {
            self.function.copies.extend(self.length);
        }
        self.length = None;
        self.function.calls.push(target.to_string());
    }

    fn step(&mut self, instruction: &str) {
        let (name, operands) = instruction.split_once(' ').unwrap_or((instruction, ""));
        match (name, operands.trim()) {
            ("push", _) => self.depth += 8,
            ("pop", _) => self.depth -= 8,
            // What comes after a return is inside the function again.
            ("ret", _) => self.depth = self.function.frame,
            (_, operands) => self.step_by(name, operands),
        }
        self.function.frame = self.function.frame.max(self.depth + below(operands));
    }

    fn step_by(&mut self, name: &str, operands: &str) {
        let (value, place) = match constant(operands) {
            Some(operands) => operands,
            None => return,
        };
        match (name, place) {
            ("sub", "%rsp") => self.depth += value,
            ("add", "%rsp") => self.depth = self.depth.saturating_sub(value),
            // Down to an even place: at most this much is lost.
            ("and", "%rsp") => self.depth += !value,
            ("mov", "%edx") => self.length = Some(value),
            _ => {}
        }
    }
}

/// The name in `0000000000000000 <name>:`.
fn function_name(line: &str) -> Option<&str> {
    line.strip_suffix(">:")?.split_once(" <").map(|(_, name)| name)
}

/// The parts of `$0x10,%rsp`.
fn constant(operands: &str) -> Option<(usize, &str)> {
    let (value, place) = operands.strip_prefix("$0x")?.split_once(',')?;
    Some((usize::from_str_radix(value, 16).ok()?, place))
}

/// How far below its stack pointer a function reaches, as it may if it
/// calls no other: 16 in `-0x10(%rsp)`.
fn below(operands: &str) -> usize {
    let found = operands.split("-0x").nth(1).and_then(|rest| rest.split_once("(%rsp"));
    found.and_then(|(value, _)| usize::from_str_radix(value, 16).ok()).unwrap_or(0)
}
