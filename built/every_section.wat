;; Every section, each kind of import and export, and each form of segment that a module of one memory has, but for elements that
;; are declared as expressions.
(module
  (type $unary (func (param i32) (result i32)))
  (type $tagged (func (param i32)))

  (import "env" "note" (func $note (type $tagged)))
  (import "env" "callbacks" (table $callbacks 4 10 funcref))
  (import "env" "base" (global $base i32))
  (import "env" "calls" (global $calls (mut i32)))
  (import "env" "foreign" (tag $foreign (type $tagged)))

  (table $operations (export "operations") 4 funcref)
  (table $things 2 externref)
  (memory $memory (export "memory") 1 4)
  (tag $negative (export "negative") (type $tagged))

  (global $limit (export "limit") i32 (i32.const 624485))
  (global $state (export "state") (mut i64) (i64.const -9223372036854775808))
  (global $half f32 (f32.const 0.5))
  (global $large f64 (f64.const 1e300))
  (global $origin i32 (global.get $base))
  (global $first funcref (ref.func $double))
  (global $nothing externref (ref.null extern))

  (start $start)

  ;; For the first table, for another, passive and declared, by indexes and then by expressions, which wat2wasm
  ;; keeps where one is a null.
  (elem (table $callbacks) (offset (global.get $base)) func $double)
  (elem (table $operations) (offset (i32.const 0)) func $double $square)
  (elem func $guarded $square)
  (elem declare func $apply)
  (elem (table $callbacks) (offset (i32.const 1)) funcref (ref.func $square) (ref.null func))
  (elem (table $operations) (offset (i32.const 2)) funcref (ref.func $guarded) (ref.null func))
  (elem funcref (ref.null func) (ref.func $checked))

  (data (memory $memory) (offset (i32.const 16)) "hello")
  (data (memory $memory) (offset (global.get $base)) "\00\ff\80")
  (data $later "later")

  ;; Counts its run in an imported global, and copies the passive data.
  (func $start
    (global.set $calls (i32.add (global.get $calls) (i32.const 1)))
    (memory.init $later (i32.const 64) (i32.const 0) (i32.const 5))
    (data.drop $later)
    (call $note (global.get $limit)))

  (func $double (type $unary) (i32.shl (local.get 0) (i32.const 1)))
  (func $square (type $unary) (i32.mul (local.get 0) (local.get 0)))

  ;; Twice its parameter; below 0 it throws the tag with it.
  (func $checked (export "checked") (type $unary)
    (if (i32.lt_s (local.get 0) (i32.const 0))
      (then (throw $negative (local.get 0))))
    (call $double (local.get 0)))

  ;; What `checked` answers, or 1000 more than the value that comes with its tag.
  (func $guarded (type $unary)
    (try (result i32)
      (do (call $checked (local.get 0)))
      (catch $negative (i32.add (i32.const 1000)))))

  ;; The operation at a place of the table, at a value.
  (func $apply (export "apply") (param $place i32) (param $value i32) (result i32)
    (call_indirect $operations (type $unary) (local.get $value) (local.get $place)))

  ;; The value that the imported function throws with the imported tag, -1 for what else it throws, 0 where it throws nothing.
  (func (export "attempt") (type $unary)
    (try (result i32)
      (do (call $note (local.get 0)) (i32.const 0))
      (catch $foreign)
      (catch_all (i32.const -1))))

  ;; A sum of globals, one of which it raises by 1.
  (func $sums (export "sums") (result f64) (local i64) (local f64 f64)
    (local.set 0 (global.get $state))
    (global.set $state (i64.add (local.get 0) (i64.const 1)))
    (local.set 1 (f64.promote_f32 (global.get $half)))
    (local.set 2 (f64.div (global.get $large) (f64.const 1e299)))
    (f64.add
      (f64.add (local.get 1) (local.get 2))
      (f64.convert_i32_s
        (i32.add
          (i32.add (ref.is_null (global.get $first)) (ref.is_null (global.get $nothing)))
          (i32.mul (i32.const 100) (global.get $origin))))))

  (func (export "reference") (result funcref) (ref.func $apply)))
