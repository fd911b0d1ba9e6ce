//! The deepest chain of calls from each call that an archive exports.
//!
//! What isn't in the archive (memcpy and the like) counts as nothing, and is
//! named.

use crate::listing::Function;
use std::collections::{BTreeMap, BTreeSet};

/// A call for C, by its name without the library's, and its deepest chain.
pub struct Call {
    pub name: String,
    pub chain: Chain,
}

/// A chain of calls and the stack that it takes.
pub struct Chain {
    pub bytes: u64,
    pub names: Vec<String>,
}

type Functions = BTreeMap<String, Function>;

/// The calls of an archive, by name.
pub fn calls(all: &Functions) -> Vec<Call> {
    let exported = all.keys().filter_map(|full| Some((full, full.strip_prefix("cheukdane_")?)));
    let call = |(full, name): (&String, &str)| Call {
        name: name.to_string(),
        chain: deepest(all, full, &mut Vec::new()),
    };
    exported.map(call).collect()
}

/// The deepest chain from `name`; a function that is met again adds nothing.
fn deepest(all: &Functions, name: &str, above: &mut Vec<String>) -> Chain {
    let Some(function) = all.get(name).filter(|_| !above.iter().any(|met| met == name)) else {
        return Chain { bytes: 0, names: Vec::new() };
    };
    above.push(name.to_string());
    let chains = function.calls.iter().map(|called| deepest(all, called, above));
    let most = chains.max_by_key(|chain| chain.bytes);
    let mut names = vec![name.to_string()];
    let mut bytes = function.frame();
    if let Some(chain) = most.filter(|chain| chain.bytes > 0) {
        bytes += chain.bytes;
        names.extend(chain.names);
    }
    above.pop();
    Chain { bytes, names }
}

/// All that `names` call, and what those call, themselves too.
fn reached(all: &Functions, names: BTreeSet<String>) -> BTreeSet<String> {
    let called = names.iter().filter_map(|name| all.get(name)).flat_map(|f| f.calls.clone());
    let more: BTreeSet<String> = names.iter().cloned().chain(called).collect();
    if more.len() == names.len() {
        more
    } else {
        reached(all, more)
    }
}

/// Prints each call's bytes and its chain, each function with its own.
pub fn show(all: &Functions, calls: &[Call]) {
    println!("Stack bytes, from the object code");
    for Call { name, chain } in calls {
        let own = |name: &String| format!("{name} {}", all[name].frame());
        let named: Vec<String> = chain.names.iter().map(own).collect();
        println!("  {name:<10} {:>6}  {}", chain.bytes, named.join(" > "));
    }
    let exported = calls.iter().map(|call| call.chain.names[0].clone()).collect();
    let reached = reached(all, exported);
    let (inside, outside): (Vec<&String>, Vec<&String>) =
        reached.iter().partition(|name| all.contains_key(*name));
    let again = inside.into_iter().filter(|name| calls_itself(all, name)).collect();
    println!("  call themselves, and are counted once: {}", joined(again));
    println!("  called, but not in the archive, and counted as 0: {}", joined(outside));
}

fn calls_itself(all: &Functions, name: &str) -> bool {
    reached(all, all[name].calls.clone()).contains(name)
}

fn joined(names: Vec<&String>) -> String {
    match names.as_slice() {
        [] => "none".to_string(),
        _ => names.iter().map(|name| name.as_str()).collect::<Vec<_>>().join(", "),
    }
}

#[cfg(test)]
mod tests {
    use super::*;
    use crate::listing::functions;

    /// `one` calls `short` and `long`; `long` calls `deep`, which calls it back.
    const LISTING: &str = "\
f.o:     file format elf64-x86-64

0000000000000000 <cheukdane_one>:
   0:\tsub    $0x10,%rsp
   4:\tcall   9 <cheukdane_one+0x9>
\t\t\t5: R_X86_64_PLT32\tshort-0x4
   9:\tcall   e <cheukdane_one+0xe>
\t\t\ta: R_X86_64_PLT32\tlong-0x4

0000000000000000 <short>:
   0:\tsub    $0x28,%rsp

0000000000000000 <long>:
   0:\tpush   %rbx
   1:\tcall   6 <long+0x6>
\t\t\t2: R_X86_64_PLT32\tdeep-0x4

0000000000000000 <deep>:
   0:\tsub    $0x30,%rsp
   4:\tcall   9 <deep+0x9>
\t\t\t5: R_X86_64_PLT32\tlong-0x4
   9:\tcall   e <deep+0xe>
\t\t\ta: R_X86_64_PLT32\tmemcpy-0x4
";

    #[test]
    fn the_deepest_chain_and_not_the_widest_function() {
        let all = functions(LISTING);
        let [one] = &calls(&all)[..] else { panic!("one call is exported") };
        assert_eq!((one.name.as_str(), one.chain.bytes), ("one", 24 + 16 + 56));
        assert_eq!(one.chain.names, ["cheukdane_one", "long", "deep"]);
        assert!(calls_itself(&all, "deep") && !calls_itself(&all, "cheukdane_one"));
    }
}
