;; Adds 1 to the number in the first key, and returns what it was before. The lock on the global
;; value makes it one step for all hosts.
(module
  (import "faasm" "lock_global_write" (func $lock_global_write (param i32)))
  (import "faasm" "pull_state" (func $pull_state (param i32)))
  (import "faasm" "get_state" (func $get_state (param i32) (result i32)))
  (import "faasm" "push_state" (func $push_state (param i32)))
  (import "faasm" "unlock_global" (func $unlock_global (param i32)))
  (memory 1)
  (func (export "main") (result i32)
    (local $at i32)
    (local $old i32)
    i32.const 0
    call $lock_global_write  ;; nobody else reads or writes the global value until it is unlocked
    i32.const 0
    call $pull_state  ;; this host's copy is now the global value
    i32.const 0
    call $get_state
    local.tee $at  ;; the address of the copy
    local.get $at
    i32.load
    local.tee $old
    i32.const 1
    i32.add
    i32.store  ;; at, old + 1
    i32.const 0
    call $push_state  ;; the global value is now this copy
    i32.const 0
    call $unlock_global
    local.get $old))
