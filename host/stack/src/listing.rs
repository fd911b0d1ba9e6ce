//! A listing of object code, as GNU's or LLVM's objdump makes it, read into
//! functions: their frames and what they call.
//!
//! A frame is what the function's code takes off the stack pointer, all of its
//! places together, and on x86-64 the return address and what the code uses
//! below the stack pointer, as a function that calls nothing may.

use std::collections::{BTreeMap, BTreeSet};

/// One function of the archive.
#[derive(Default)]
pub struct Function {
    /// What it takes off the stack pointer.
    taken: u64,
    /// How far below the stack pointer it goes.
    below: u64,
    /// What it calls.
    pub calls: BTreeSet<String>,
}

impl Function {
    /// Its frame.
    pub fn frame(&self) -> u64 {
        self.taken + self.below
    }
}

/// The functions of a listing, by name.
pub fn functions(listing: &str) -> BTreeMap<String, Function> {
    let mut all = BTreeMap::new();
    let mut current: Option<(String, Function)> = None;
    let mut lines = listing.lines().peekable();
    while let Some(line) = lines.next() {
        if let Some(name) = header(line) {
            all.extend(current.replace((name, first_frame(listing))));
        } else if let (Some((_, function)), Some((operation, operands))) =
            (&mut current, told(line))
        {
            let after = lines.peek().and_then(|line| told(line));
            function.taken += taken(operation, operands);
            function.below = function.below.max(below(operands));
            function.calls.extend(called(operation, operands, after));
        }
    }
    all.extend(current);
    all
}

/// What a call itself takes: on x86-64 the return address.
fn first_frame(listing: &str) -> Function {
    let taken = if listing.contains("x86-64") { 8 } else { 0 };
    Function { taken, ..Function::default() }
}

/// `0000000000000000 <name>:`
fn header(line: &str) -> Option<String> {
    let (place, name) = line.strip_suffix(">:")?.split_once(" <")?;
    is_place(place).then(|| name.to_string())
}

fn is_place(word: &str) -> bool {
    !word.is_empty() && word.bytes().all(|digit| digit.is_ascii_hexdigit())
}

/// An instruction's operation and operands, or, in a line of its own behind its
/// instruction, a relocation's kind and symbol. Some listings of x86-64 write the
/// operands' width, a `q`, after the operation.
fn told(line: &str) -> Option<(&str, &str)> {
    let (place, rest) = line.split_once(':')?;
    let rest = rest.trim();
    let (word, operands) = rest.split_once(|c: char| c.is_whitespace()).unwrap_or((rest, ""));
    is_place(place.trim()).then(|| (word.strip_suffix('q').unwrap_or(word), operands.trim()))
}

/// What an instruction calls, or ends with: the function of the relocation
/// behind it, or else a place of the same section, `call 40 <name>`, or one that
/// a register has.
fn called(operation: &str, operands: &str, after: Option<(&str, &str)>) -> Option<String> {
    match (operation, after) {
        (_, Some(("R_X86_64_PLT32" | "R_AARCH64_CALL26" | "R_AARCH64_JUMP26", name))) => {
            Some(symbol(name))
        }
        ("call" | "bl", _) => Some(within(operands).unwrap_or(operands).to_string()),
        ("blr", _) => Some(operands.to_string()),
        _ => None,
    }
}

/// The function that a relocation names; one that no other object may call is
/// named by its section, `.text.NAME`.
fn symbol(operands: &str) -> String {
    let symbol = operands.split(['+', '-']).next().unwrap_or_default();
    symbol.strip_prefix(".text.").unwrap_or(symbol).to_string()
}

/// The function that starts at the place of a call's operand.
fn within(operands: &str) -> Option<&str> {
    let (_, name) = operands.split_once('<')?;
    Some(name.split_once('>')?.0)
}

/// The bytes that one instruction takes off the stack pointer.
///
/// # Panics
///
/// If it sets the stack pointer in a way that isn't read here.
fn taken(operation: &str, operands: &str) -> u64 {
    match operation {
        "push" => 8,
        "sub" if operands.starts_with("sp, sp, #") => shifted(&operands[9..]),
        "stp" | "str" => before_store(operands).unwrap_or(0),
        "sub" | "add" | "and" | "lea" | "mov" if sets_rsp(operands) => {
            let added = off_rsp(operands).filter(|_| matches!(operation, "sub" | "add"));
            let added = added.unwrap_or_else(|| panic!("{operation} {operands}: no frame of ours"));
            let off = if operation == "sub" { added } else { -added };
            u64::try_from(off).unwrap_or(0)
        }
        _ => 0,
    }
}

/// How far below x86-64's stack pointer an operand is: `-0x18(%rsp)`.
fn below(operands: &str) -> u64 {
    let Some((told, _)) = operands.split_once("(%rsp") else { return 0 };
    let last = told.rsplit([',', ' ', '\t']).next().unwrap_or_default();
    last.strip_prefix('-').and_then(number).unwrap_or(0)
}

/// Whether the last operand, the one that is set, is x86-64's stack pointer.
fn sets_rsp(operands: &str) -> bool {
    let last = operands.rsplit(',').next().unwrap_or_default();
    last.split_whitespace().next() == Some("%rsp")
}

/// `$0x1a8,%rsp`; 128 bytes are taken by adding `$0xffffffffffffff80`, or `$-128`.
fn off_rsp(operands: &str) -> Option<i64> {
    let told = operands.strip_prefix('$')?.split_once(',')?.0;
    match told.strip_prefix('-') {
        Some(less) => number(less).map(|bytes| -(bytes as i64)),
        None => number(told).map(|bytes| bytes as i64),
    }
}

/// `#0x1, lsl #12`, or a number alone; the first `#` is gone.
fn shifted(told: &str) -> u64 {
    let (bytes, shift) = told.split_once(", lsl #").unwrap_or((told, "0"));
    number(bytes).unwrap_or(0)
        << number(shift.split_whitespace().next().unwrap_or("0")).unwrap_or(0)
}

/// `x29, x30, [sp, #-96]!`
fn before_store(operands: &str) -> Option<u64> {
    let (_, told) = operands.split_once("[sp, #-")?;
    number(told.split_once("]!")?.0)
}

fn number(told: &str) -> Option<u64> {
    let told = told.split_whitespace().next()?;
    match told.strip_prefix("0x") {
        Some(digits) => u64::from_str_radix(digits, 16).ok(),
        None => told.parse().ok(),
    }
}

#[cfg(test)]
mod tests {
    use super::*;

    const AARCH64: &str = "\
f.o:     file format elf64-littleaarch64

0000000000000000 <outer>:
   0:\tstp\tx29, x30, [sp, #-96]!
   4:\tsub\tsp, sp, #0x1, lsl #12
   8:\tbl\t0 <outer>
\t\t\t8: R_AARCH64_CALL26\t.text.a::inner
   c:\tldp\tx29, x30, [sp], #96
  10:\tb\t0 <memcpy>
\t\t\t10: R_AARCH64_JUMP26\tmemcpy

0000000000000000 <a::inner>:
   0:\tsub\tsp, sp, #0x30
   4:\tadd\tsp, sp, #0x30
   8:\tret
";

    const X86_64: &str = "\
f.o:     file format elf64-x86-64

0000000000000000 <outer>:
   0:\tpush   %rbp
   1:\tsub    $0x1a8,%rsp
   8:\tcall   d <outer+0xd>
\t\t\t9: R_X86_64_PLT32\ta::inner-0x4
   d:\tsub    $0xffffffffffffff80,%rsp
  11:\tadd    $0x1a8,%rsp
  18:\tjmp    1d <outer+0x1d>
\t\t\t19: R_X86_64_PLT32\tmemcpy-0x4

0000000000000000 <a::inner>:
   0:\tadd    $0xffffffffffffff80,%rsp
   4:\tmov    %al,-0x5(%rsp,%rcx,1)
   8:\tmov    -0x4(%rsp),%eax
   c:\tretq
";

    const X86_64_BY_LLVM: &str = "\
f.a(f.o):\tfile format elf64-x86-64

0000000000000000 <outer>:
       0:      \tpushq\t%rbp
       1:      \tsubq\t$424, %rsp              # imm = 0x1A8
       8:      \tcallq\t0xd <outer+0xd>
\t\t0000000000000009:  R_X86_64_PLT32\t.text.a::inner-0x4
       d:      \tsubq\t$-128, %rsp
      11:      \taddq\t$424, %rsp              # imm = 0x1A8
      18:      \tjmp\t0x1d <outer+0x1d>
\t\t0000000000000019:  R_X86_64_PLT32\tmemcpy-0x4

0000000000000000 <a::inner>:
       0:      \taddq\t$-128, %rsp
       4:      \tmovb\t%al, -5(%rsp,%rcx)
       8:      \tmovl\t-4(%rsp), %eax
       c:      \tretq
";

    fn frames(listing: &str) -> [u64; 2] {
        let all = functions(listing);
        let calls: Vec<&str> = all["outer"].calls.iter().map(String::as_str).collect();
        assert_eq!(calls, ["a::inner", "memcpy"]);
        ["outer", "a::inner"].map(|name| all[name].frame())
    }

    #[test]
    fn frames_of_both_machines() {
        assert_eq!(frames(AARCH64), [96 + 4096, 48]);
        assert_eq!(frames(X86_64), [8 + 8 + 0x1A8, 8 + 128 + 5]);
        assert_eq!(frames(X86_64_BY_LLVM), frames(X86_64));
    }

    #[test]
    fn a_call_through_a_register_is_named() {
        assert_eq!(called("call", "*%rax", None).as_deref(), Some("*%rax"));
        assert_eq!(called("blr", "x8", None).as_deref(), Some("x8"));
    }

    #[test]
    #[should_panic(expected = "no frame of ours")]
    fn an_aligned_frame_is_refused() {
        taken("and", "$0xffffffffffffffe0,%rsp");
    }
}
