//! Bytes in and out: lines of a text. `./run --in FILE` calls `alloc` for so many bytes, writes those of the file there, and
//! gives pointer and length behind the arguments.

/// Room for so many bytes. Where the memory cannot grow it traps.
#[no_mangle]
pub extern "C" fn alloc(length: usize) -> *mut u8 {
    vec![0; length].leak().as_mut_ptr()
}

/// The text in what `alloc` made.
fn text(at: *mut u8, length: usize) -> String {
    let bytes = unsafe { Vec::from_raw_parts(at, length, length) };
    String::from_utf8_lossy(&bytes).into_owned()
}

/// Lines as an answer: their pointer in the high half of one number, their length in the low one.
fn answer<'a>(lines: impl Iterator<Item = &'a str>) -> u64 {
    let text: String = lines.flat_map(|line| [line, "\n"]).collect();
    let bytes = text.into_bytes().leak();
    (bytes.as_ptr() as u64) << 32 | bytes.len() as u64
}

/// The lines in order.
#[no_mangle]
pub extern "C" fn sorted(at: *mut u8, length: usize) -> u64 {
    let text = text(at, length);
    let mut lines: Vec<&str> = text.lines().collect();
    lines.sort();
    answer(lines.into_iter())
}

/// The lines that have at least so many words.
#[no_mangle]
pub extern "C" fn long(words: usize, at: *mut u8, length: usize) -> u64 {
    let text = text(at, length);
    answer(text.lines().filter(|line| line.split_whitespace().count() >= words))
}
