;; Reads a number from its input and returns twice that number.
(module
  (import "faasm" "read_input" (func $read_input (param i32 i32 i32)))
  (memory 1)
  (func (export "main") (result i32)
    i32.const 0
    i32.const 0
    i32.const 4
    call $read_input  ;; from 0 of the input to address 0, 4 bytes
    i32.const 0
    i32.load
    i32.const 2
    i32.mul))
