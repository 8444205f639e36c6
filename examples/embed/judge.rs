//! Judges each file of a folder as a module, in the order of their names, with one validator: `judge FOLDER` prints a line for each, the
//! name and the text of the verdict. What is no regular file, and what has a dot in front, is passed over. The status is 0 where all are
//! valid and else 1; 3 where the words are others, 5 where memory is wanting.
use std::{env, fs, process::exit, ptr};

const CORE: u32 = 0;
const OK: u32 = 0;
const MALFORMED: u32 = 2;

// What lies at the pointer is known to the library alone.
#[repr(C)]
struct Kept {
    _private: [u8; 0],
}

// As in wasmkit.h. A pointer of a slice is never null, and no `&mut` lies in another argument.
extern "C" {
    fn wk_validator_new(validator: &mut *mut Kept) -> u32;
    fn wk_validator_judge(
        validator: *mut Kept, bytes: *const u8, len: usize, profile: u32, text: *mut u8, room: usize, text_len: &mut usize,
    ) -> u32;
    fn wk_validator_free(validator: *mut Kept);
}

/// Judges one module after the other, and keeps its room from one to the next. A `&mut` keeps it to one call at a time.
struct Validator(*mut Kept);

impl Validator {
    fn new() -> Option<Validator> {
        let mut kept = ptr::null_mut();
        let result = unsafe { wk_validator_new(&mut kept) };
        (result == OK).then(|| Validator(kept))
    }

    fn judge(&mut self, bytes: &[u8]) -> (u32, Vec<u8>) {
        let (mut text, mut len) = (vec![0; 256], 0);
        let result = unsafe { wk_validator_judge(self.0, bytes.as_ptr(), bytes.len(), CORE, text.as_mut_ptr(), text.len(), &mut len) };
        text.truncate(len);
        (result, text)
    }
}

impl Drop for Validator {
    fn drop(&mut self) {
        unsafe { wk_validator_free(self.0) }
    }
}

fn main() {
    let words: Vec<String> = env::args().skip(1).collect();
    let [folder] = words.as_slice() else { exit(3) };
    let Some(mut validator) = Validator::new() else { exit(5) };
    let mut files: Vec<_> = fs::read_dir(folder).expect(folder).map(|it| it.expect(folder).path()).collect();
    files.sort();
    let mut status = 0;
    for file in files {
        let name = file.file_name().unwrap().to_string_lossy();
        if name.starts_with('.') || !file.is_file() {
            continue;
        }
        let (result, text) = validator.judge(&fs::read(&file).expect(&name));
        if result > MALFORMED {
            exit(5);
        }
        print!("{name}: {}", String::from_utf8_lossy(&text));
        status |= (result != OK) as i32;
    }
    drop(validator);
    exit(status);
}
