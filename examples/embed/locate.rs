//! Says where the fault of a module is, in numbers: `locate FILE` prints those that there are: the fault, 0 of a valid module, its section, item
//! and token, the offset in the file, and the function. The status is 0 where the module is valid, 1 where it is not, and 2 where FILE is no
//! module; 3 where the words are others, 5 where memory is wanting.
use std::{env, fs, process::exit};

const CORE: u32 = 0;
const MALFORMED: u32 = 2;
const NONE: u32 = u32::MAX;

// As in wasmkit.h. A pointer of a slice is never null.
extern "C" {
    fn wk_ffi_locate(bytes: *const u8, len: usize, profile: u32, numbers: *mut u32, count: usize) -> u32;
}

/// A fault and where it is, as `struct wasmkit_fault` has them.
struct Fault {
    fault: u32,
    section: Option<u32>,
    item: Option<u32>,
    token: Option<u32>,
    offset: Option<u32>,
    function: Option<u32>,
}

/// The result, and the fault where it is one of the first three.
fn locate(bytes: &[u8]) -> (u32, Fault) {
    let mut numbers = [NONE; 6];
    let result = unsafe { wk_ffi_locate(bytes.as_ptr(), bytes.len(), CORE, numbers.as_mut_ptr(), numbers.len()) };
    let [section, item, token, offset, function] = [1, 2, 3, 4, 5].map(|at| Some(numbers[at]).filter(|number| *number != NONE));
    (result, Fault { fault: numbers[0], section, item, token, offset, function })
}

fn main() {
    let words: Vec<String> = env::args().skip(1).collect();
    let [file] = words.as_slice() else { exit(3) };
    let (result, fault) = locate(&fs::read(file).expect(file));
    if result > MALFORMED {
        exit(5);
    }
    print!("fault {}", fault.fault);
    let places = [
        ("section", fault.section),
        ("item", fault.item),
        ("token", fault.token),
        ("offset", fault.offset),
        ("function", fault.function),
    ];
    for (name, number) in places {
        if let Some(number) = number {
            print!(", {name} {number}");
        }
    }
    println!();
    exit(result as i32);
}
