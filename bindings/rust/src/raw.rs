//! The functions of the library, and the structs that cross. A slice's pointer is never null, as the library asks.
#[repr(C)]
pub struct Ran {
    pub code: u32,
    pub count: usize,
}

#[repr(C)]
#[derive(Clone, Copy, Default)]
pub struct Value {
    pub kind: u32,
    pub low: u64,
    pub high: u64,
}

#[repr(C)]
pub struct Bounds {
    pub has_fuel: u32,
    pub pages: u32,
    pub elements: u32,
    pub fuel: u64,
    pub turns: u64,
}

#[repr(C)]
pub struct Called {
    pub code: u32,
    pub cause: u32,
    pub count: usize,
}

extern "C" {
    fn mullerpink_run(
        words: *const u8,
        words_len: usize,
        module: *const u8,
        module_len: usize,
        out: *mut u8,
        out_len: usize,
    ) -> Ran;
    fn mullerpink_session(script: *const u8, script_len: usize, out: *mut u8, out_len: usize) -> Ran;
    fn mullerpink_call(
        module: *const u8,
        module_len: usize,
        name: *const u8,
        name_len: usize,
        arguments: *const Value,
        arguments_len: usize,
        bounds: *const Bounds,
        results: *mut Value,
        results_len: usize,
    ) -> Called;
    fn mullerpink_call_bytes(
        module: *const u8,
        module_len: usize,
        name: *const u8,
        name_len: usize,
        arguments: *const Value,
        arguments_len: usize,
        bounds: *const Bounds,
        bytes: *const u8,
        bytes_len: usize,
        out: *mut u8,
        out_len: usize,
    ) -> Called;
}

pub fn run(words: &[u8], module: &[u8], out: &mut [u8]) -> Ran {
    // Each pointer is that of a slice with its length, and `out` is borrowed alone.
    unsafe {
        mullerpink_run(
            words.as_ptr(),
            words.len(),
            module.as_ptr(),
            module.len(),
            out.as_mut_ptr(),
            out.len(),
        )
    }
}

pub fn session(script: &[u8], out: &mut [u8]) -> Ran {
    // As in `run`.
    unsafe { mullerpink_session(script.as_ptr(), script.len(), out.as_mut_ptr(), out.len()) }
}

pub fn call(module: &[u8], name: &[u8], arguments: &[Value], bounds: &Bounds, results: &mut [Value]) -> Called {
    // As in `run`, with `results` borrowed alone, and the structs laid out as C has them.
    unsafe {
        mullerpink_call(
            module.as_ptr(),
            module.len(),
            name.as_ptr(),
            name.len(),
            arguments.as_ptr(),
            arguments.len(),
            bounds,
            results.as_mut_ptr(),
            results.len(),
        )
    }
}

pub fn call_bytes(
    module: &[u8],
    name: &[u8],
    arguments: &[Value],
    bounds: &Bounds,
    bytes: &[u8],
    out: &mut [u8],
) -> Called {
    // As in `call`.
    unsafe {
        mullerpink_call_bytes(
            module.as_ptr(),
            module.len(),
            name.as_ptr(),
            name.len(),
            arguments.as_ptr(),
            arguments.len(),
            bounds,
            bytes.as_ptr(),
            bytes.len(),
            out.as_mut_ptr(),
            out.len(),
        )
    }
}
