use mullerpink::{call, call_bytes, run, session, Bounds, CallError, Error, Refusal, Trap, Value};

const GUEST: &[u8] = include_bytes!("../../guest.wasm");

fn said(line: &str) -> Result<String, Error> {
    Ok(line.to_string())
}

#[test]
fn gives_lines() {
    assert_eq!(run(&["div", "-84", "2"], GUEST), said("ok values i32:-42\n"));
    assert_eq!(run(&["div", "1", "0"], GUEST), said("trap IntegerDivisionByZero\n"));
    assert_eq!(run(&["--fuel", "1000", "forever"], GUEST), said("trap OutOfFuel\n"));
    assert_eq!(run(&["--turns", "9", "forever"], GUEST), said("refused TurnLimit\n"));
}

#[test]
fn tells_why_there_is_no_line() {
    assert_eq!(run(&["--turns", "0", "forever"], GUEST), Err(Error::BadWords));
    assert_eq!(run(&["missing"], GUEST), Err(Error::NoFunction));
    assert_eq!(run(&["div"], GUEST), Err(Error::BadArguments));
    assert_eq!(run(&["div"], &GUEST[1..]), Err(Error::Unreadable));
    assert_eq!(run(&["div"], &[]), Err(Error::Unreadable));
}

#[test]
fn runs_sessions() {
    assert_eq!(session("{\"commands\": []}"), said(""));
    assert_eq!(session("{"), Err(Error::Unreadable));
    assert_eq!(session("{}"), Err(Error::NoFunction));
}

fn divided(one: i32, other: i32, bounds: Bounds) -> Result<Vec<Value>, CallError> {
    call(GUEST, "div", &[Value::I32(one), Value::I32(other)], bounds)
}

#[test]
fn calls_with_values() {
    assert_eq!(divided(-84, 2, Bounds::default()), Ok(vec![Value::I32(-42)]));
    assert_eq!(divided(1, 0, Bounds::default()), Err(CallError::Trap(Trap::IntegerDivisionByZero)));
    let forever = |bounds| call(GUEST, "forever", &[], bounds);
    let fuelled = Bounds { fuel: Some(1000), ..Bounds::default() };
    assert_eq!(forever(fuelled), Err(CallError::Trap(Trap::OutOfFuel)));
    let short = Bounds { turns: 9, ..Bounds::default() };
    assert_eq!(forever(short), Err(CallError::Refused(Refusal::TurnLimit)));
}

#[test]
fn tells_why_there_are_no_results() {
    let fault = |error| Err(CallError::Fault(error));
    assert_eq!(divided(1, 1, Bounds { turns: 0, ..Bounds::default() }), fault(Error::BadWords));
    assert_eq!(call(GUEST, "missing", &[], Bounds::default()), fault(Error::NoFunction));
    assert_eq!(call(GUEST, "div", &[Value::I32(1), Value::I64(1)], Bounds::default()), fault(Error::BadArguments));
    assert_eq!(call(&GUEST[1..], "div", &[], Bounds::default()), fault(Error::Unreadable));
    let reference = [Value::FuncRef { is_null: false }];
    assert_eq!(call(GUEST, "div", &reference, Bounds::default()), Err(CallError::BadValue));
}

const ENCODE: &[u8] = include_bytes!("../../../examples/wasm/encode.wasm");

#[test]
fn calls_with_bytes() {
    let encode = |name, arguments: &[Value], bytes: &[u8]| call_bytes(ENCODE, name, arguments, Bounds::default(), bytes);
    assert_eq!(encode("base64", &[], b"Mullerpink"), Ok(b"TXVsbGVycGluaw==".to_vec()));
    assert_eq!(encode("moved", &[Value::I32(13)], b"Hello, Zoo"), Ok(b"Uryyb, Mbb".to_vec()));
    let long = vec![0; 3000];
    assert_eq!(encode("base64", &[], &long), Ok(vec![b'A'; 4000]));
    assert_eq!(encode("moved", &[], b"a"), Err(CallError::Fault(Error::BadArguments)));
    let none = call_bytes(GUEST, "div", &[], Bounds::default(), b"");
    assert_eq!(none, Err(CallError::Fault(Error::TakesNoBytes)));
}
