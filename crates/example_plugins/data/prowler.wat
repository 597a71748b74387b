;; A hostile guest: it writes to every address there is, and takes every page that it can get.
(module
  (memory (export "memory") 1)

  ;; Stores through its memory, 64 bytes in each round, and past the end of it.
  (func (export "scribble")
    (local $at i32)
    (loop $next
      (i64.store (local.get $at) (i64.const -1))
      (i64.store offset=8 (local.get $at) (i64.const -1))
      (i64.store offset=16 (local.get $at) (i64.const -1))
      (i64.store offset=24 (local.get $at) (i64.const -1))
      (i64.store offset=32 (local.get $at) (i64.const -1))
      (i64.store offset=40 (local.get $at) (i64.const -1))
      (i64.store offset=48 (local.get $at) (i64.const -1))
      (i64.store offset=56 (local.get $at) (i64.const -1))
      (local.set $at (i32.add (local.get $at) (i32.const 64)))
      (br $next)))

  ;; Asks for pages until there are none: how many it has then.
  (func (export "hoard") (result i32)
    (loop $next
      (br_if $next (i32.ne (memory.grow (i32.const 1)) (i32.const -1))))
    (memory.size)))
