//! A host that calls a stranger's code: a sum, a trap, and code without end that is stopped.
use mullerpink::{call, run, Bounds, Value};

fn main() -> Result<(), Box<dyn std::error::Error>> {
    let path = std::env::args().nth(1).ok_or("the file of a module")?;
    let module = std::fs::read(path)?;
    print!("84 / 2: {}", run(&["div", "84", "2"], &module)?);
    print!("84 / 0: {}", run(&["div", "84", "0"], &module)?);
    print!("forever: {}", run(&["--fuel", "1000", "forever"], &module)?);
    match call(&module, "div", &[Value::I32(84), Value::I32(0)], Bounds::default()) {
        Ok(results) => println!("a call: {results:?}"),
        Err(error) => println!("a call: {error}"),
    }
    Ok(())
}
