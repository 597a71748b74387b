;; An honest guest: it keeps a sum, and applies a function that it is given to a number.
(module
  (type $number (func (param i32) (result i32)))
  (import "host" "exchange" (func $exchange (param funcref) (result funcref)))
  (memory (export "memory") 1)
  (table $given 1 funcref)

  ;; Adds a number to the sum, which stands at address 0.
  (func $add (export "add") (type $number)
    (i32.store (i32.const 0) (i32.add (i32.load (i32.const 0)) (local.get 0)))
    (i32.load (i32.const 0)))

  ;; What a function gives for a number.
  (func (export "apply") (param funcref i32) (result i32)
    (table.set $given (i32.const 0) (local.get 0))
    (call_indirect $given (type $number) (local.get 1) (i32.const 0)))

  ;; The function that adds.
  (func (export "adder") (result funcref) (ref.func $add))

  ;; Asks the host for the function that stands on its board, and leaves none.
  (func (export "take") (result i32)
    (ref.is_null (call $exchange (ref.null func)))))
