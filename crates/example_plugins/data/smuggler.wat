;; A hostile guest: it hands out its own function, and would have another guest call it.
(module
  (import "host" "exchange" (func $exchange (param funcref) (result funcref)))
  (memory (export "memory") 1)
  (elem declare func $own)

  ;; Writes a byte of its own memory, at the address that it is called on.
  (func $own (param i32) (result i32)
    (i32.store8 (local.get 0) (i32.const 255))
    (local.get 0))

  ;; Gives the host its function as a result.
  (func (export "hand_out") (result funcref) (ref.func $own))

  ;; Leaves its function on the host's board, for whoever asks next.
  (func (export "leave") (result i32) (ref.is_null (call $exchange (ref.func $own)))))
