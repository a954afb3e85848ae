;; Calls the first of its callable functions twice, with 20 and with 1 as input, and returns the sum of
;; what they return.
(module
  (import "faasm" "chain_call" (func $chain_call (param i32 i32 i32) (result i32)))
  (import "faasm" "await_call" (func $await_call (param i32) (result i64)))
  (memory 1)
  (func (export "main") (result i32)
    (local $first i32)
    (local $second i32)
    i32.const 0
    i32.const 20
    i32.store
    i32.const 0
    i32.const 0
    i32.const 4
    call $chain_call  ;; function 0 of its list, with the 4 bytes at address 0
    local.set $first
    i32.const 0
    i32.const 1
    i32.store
    i32.const 0
    i32.const 0
    i32.const 4
    call $chain_call  ;; both calls may run at once
    local.set $second
    local.get $first
    call $await_call
    i32.wrap_i64  ;; the low half is what the call returned
    local.get $second
    call $await_call
    i32.wrap_i64
    i32.add))
