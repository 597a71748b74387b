(module
  ;; 1000000 calls through a table of four functions, one after another
  (type $step (func (param i32) (result i32)))
  (table 4 funcref)
  (elem (i32.const 0) $a $b $c $d)
  (func $a (type $step) (i32.add (local.get 0) (i32.const 3)))
  (func $b (type $step) (i32.xor (local.get 0) (i32.const 0x5a5a)))
  (func $c (type $step) (i32.mul (local.get 0) (i32.const 5)))
  (func $d (type $step) (i32.rotl (local.get 0) (i32.const 7)))
  (func (export "run") (result i32)
    (local $i i32) (local $x i32)
    (loop $next
      (local.set $x
        (call_indirect (type $step) (local.get $x) (i32.and (local.get $i) (i32.const 3))))
      (local.set $i (i32.add (local.get $i) (i32.const 1)))
      (br_if $next (i32.lt_u (local.get $i) (i32.const 1000000))))
    (i32.and (local.get $x) (i32.const 0x7fffffff))))
