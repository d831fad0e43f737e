;; Passive elements of both forms, which instructions copy, a table whose places they set and get, and elements that are declared
;; as expressions.
(module
  (type $unary (func (param i32) (result i32)))
  (table $operations (export "operations") 4 funcref)
  (table $things 2 externref)
  (elem $late func $double $square)
  (elem $last funcref (ref.null func) (ref.func $double))
  (elem declare funcref (ref.func $square) (ref.null func))
  (start $start)
  (func $start
    (table.init $operations $late (i32.const 1) (i32.const 0) (i32.const 2))
    (elem.drop $late)
    (table.init $operations $last (i32.const 3) (i32.const 1) (i32.const 1)))
  (func $double (type $unary) (i32.shl (local.get 0) (i32.const 1)))
  (func $square (type $unary) (i32.mul (local.get 0) (local.get 0)))
  (func (export "apply") (param $place i32) (param $value i32) (result i32)
    (call_indirect $operations (type $unary) (local.get $value) (local.get $place)))
  (func (export "again") (table.init $operations $late (i32.const 0) (i32.const 0) (i32.const 1)))
  (func (export "keep") (param externref) (result externref)
    (table.set $things (i32.const 1) (local.get 0))
    (table.get $things (i32.const 1))))
