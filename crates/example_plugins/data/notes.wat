;; An honest guest: it keeps a text, and makes its memory larger as the text grows.
(module
  (memory (export "memory") 1)
  (data (i32.const 0) "what the notes keep")

  ;; The sum of the first 19 bytes.
  (func (export "checksum") (result i32)
    (local $at i32) (local $sum i32)
    (loop $next
      (local.set $sum (i32.add (local.get $sum) (i32.load8_u (local.get $at))))
      (local.set $at (i32.add (local.get $at) (i32.const 1)))
      (br_if $next (i32.lt_u (local.get $at) (i32.const 19))))
    (local.get $sum))

  ;; One page more: how many there were, or -1.
  (func (export "grow") (result i32) (memory.grow (i32.const 1))))
