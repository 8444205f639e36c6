//! Edits a module by a script through wasmkit as a library, and judges what comes out: `embed MODULE SCRIPT OUT`.
use std::{env, fs, io::Write, process::exit};

const CORE: u32 = 0;
const TOO_SMALL: u32 = 7;

// As in wasmkit.h. A pointer of a slice is never null, and no `&mut` lies in another argument.
extern "C" {
    fn wk_ffi_validate(bytes: *const u8, len: usize, profile: u32, text: *mut u8, room: usize, text_len: &mut usize) -> u32;
    fn wk_ffi_edit(
        bytes: *const u8, len: usize, script: *const u8, script_len: usize, profile: u32, keep_valid: u32,
        out: *mut u8, out_room: usize, out_len: &mut usize, text: *mut u8, text_room: usize, text_len: &mut usize,
    ) -> u32;
}

fn validate(bytes: &[u8]) -> (u32, Vec<u8>) {
    let (mut text, mut len) = (vec![0; 256], 0);
    let result = unsafe { wk_ffi_validate(bytes.as_ptr(), bytes.len(), CORE, text.as_mut_ptr(), text.len(), &mut len) };
    text.truncate(len);
    (result, text)
}

fn edit(bytes: &[u8], script: &[u8]) -> (u32, Vec<u8>, Vec<u8>) {
    let (mut out_len, mut text_len) = (2 * bytes.len() + script.len() + 64, 256);
    loop {
        let (mut out, mut text) = (vec![0; out_len], vec![0; text_len]);
        let result = unsafe {
            wk_ffi_edit(
                bytes.as_ptr(), bytes.len(), script.as_ptr(), script.len(), CORE, 0,
                out.as_mut_ptr(), out.len(), &mut out_len, text.as_mut_ptr(), text.len(), &mut text_len,
            )
        };
        // Once more with the lengths that are needed, where the first guess was too small.
        if result != TOO_SMALL {
            out.truncate(out_len);
            text.truncate(text_len);
            return (result, out, text);
        }
    }
}

fn main() {
    let names: Vec<String> = env::args().skip(1).collect();
    let [module, script, out] = names.as_slice() else { exit(3) };
    let (bytes, edits) = (fs::read(module).expect(module), fs::read(script).expect(script));
    let (result, edited, report) = edit(&bytes, &edits);
    print!("edit: {result}\n{}", String::from_utf8_lossy(&report));
    if result != 0 && result != 4 {
        exit(result as i32);
    }
    fs::File::create(out).expect(out).write_all(&edited).expect(out);
    let (result, line) = validate(&edited);
    print!("validate: {result}\n{}", String::from_utf8_lossy(&line));
    exit(result as i32);
}
