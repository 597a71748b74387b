(module
  ;; a six-state machine driven by br_table, 1000000 steps
  (func (export "run") (result i32)
    (local $state i32) (local $acc i32) (local $n i32)
    (loop $next
      (block $join
        (block $s5 (block $s4 (block $s3 (block $s2 (block $s1 (block $s0
          (br_table $s0 $s1 $s2 $s3 $s4 $s5 (local.get $state)))
            (local.set $acc (i32.add (local.get $acc) (i32.const 1)))
            (local.set $state (i32.const 1))
            (br $join))
          (local.set $acc (i32.mul (local.get $acc) (i32.const 3)))
          (local.set $state (i32.and (local.get $acc) (i32.const 7)))
          (br $join))
         (local.set $acc (i32.xor (local.get $acc) (i32.const 0x5a5a)))
         (local.set $state (i32.const 3))
         (br $join))
        (local.set $acc (i32.sub (local.get $acc) (i32.const 7)))
        (local.set $state (i32.and (i32.shr_u (local.get $acc) (i32.const 3)) (i32.const 7)))
        (br $join))
       (local.set $acc (i32.rotl (local.get $acc) (i32.const 5)))
       (local.set $state (i32.const 5))
       (br $join))
      (local.set $acc (i32.add (local.get $acc) (local.get $n)))
      (local.set $state (i32.rem_u (local.get $acc) (i32.const 6))))
      (local.set $n (i32.add (local.get $n) (i32.const 1)))
      (br_if $next (i32.lt_u (local.get $n) (i32.const 1000000))))
    (local.get $acc)))
