;; A module that looks like the library's, and traps when its drive is asked for its next reaction.
(module
  (memory (export "memory") 16)
  (global $free (mut i64) (i64.const 1024))
  (func (export "room") (param $size i64) (result i64)
    (global.get $free)
    (global.set $free (i64.add (global.get $free) (local.get $size))))
  (func (export "room_back") (param i64))
  (func (export "y1541_open") (param i64 i64 i64 i32 i32 i32 i32) (result i32) (i32.const 0))
  (func (export "js_next_due") (param i32) (result f64) (unreachable))
  (func (export "y1541_status") (param i64) (result i32) (i32.const 73))
  (func (export "y1541_image") (param i64 i64 i64 i64) (result i32) (i32.const 0)))
