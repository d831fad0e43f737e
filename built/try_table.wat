;; Exceptions as the standard has them: each kind of catch clause, and a throw of what was caught.
(module
  (type $unary (func (param i32) (result i32)))
  (type $tagged (func (param i32)))
  (type $caught (func (result i32 exnref)))
  (tag $negative (export "negative") (type $tagged))

  ;; Twice its parameter; below 0 it throws the tag with it, catches it, and answers 1000 more.
  (func (export "catch") (type $unary)
    (block (result i32)
      (try_table (result i32) (catch $negative 0)
        (if (i32.lt_s (local.get 0) (i32.const 0))
          (then (throw $negative (local.get 0))))
        (i32.shl (local.get 0) (i32.const 1)))
      (return))
    (i32.add (i32.const 1000)))

  ;; The others throw the tag with their parameter. These two throw what they caught.
  (func (export "catch_ref") (type $unary)
    (block (type $caught)
      (try_table (catch_ref $negative 0)
        (throw $negative (local.get 0)))
      (unreachable))
    (throw_ref))

  (func (export "catch_all_ref") (type $unary)
    (block (result exnref)
      (try_table (catch_all_ref 0)
        (throw $negative (local.get 0)))
      (unreachable))
    (throw_ref))

  ;; This one answers its parameter.
  (func (export "catch_all") (type $unary)
    (block
      (try_table (catch_all 0)
        (throw $negative (local.get 0))))
    (local.get 0)))
