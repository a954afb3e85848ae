// The host calls of a function, for C by clang, and small helpers over them. One header, nothing to link:
// `guests/build function.c` makes the module. A function exports `main`, which returns its result, and may export `init`,
// which runs once before the snapshot is taken that every call starts from; `init` may make no host call.
//
// k, a key's place: the function's `grants` in the session file, counted from 0. f, a function's place: its `calls`, counted
// from 0. c, a child's number: the calls that this call made, counted from 0. All sizes, lengths and offsets are in bytes.
//
// Each key has one global value and on each host a replica, of the same size. Calls on one host share its replica; a replica
// that is absent is filled from the global value by the first call there that needs it. Locks are of one of these two tiers:
// `state` is the replica of this host, `global` the global value. A call waits while a lock of another call forbids what it
// does: what reads waits for a write lock, what writes for any lock. Locks that are still held at the end are released.
//
// A trap ends the call with the outcome Trap; its name stands behind "Traps:" below, in the order of the checks. A call with a
// buffer (ptr, len) may trap, beside what its line says: `buffer too long` where len is above 65,536, before all else; and behind
// all else but `append full` and `chain full`, `out of bounds memory access` where the buffer isn't in memory, and `denied` where a
// buffer that is written lies in state that was granted for reading only. Each whole 64 bytes of a buffer cost one unit of fuel
// beside the call's own.
#ifndef FAASM_H
#define FAASM_H

#include <stdbool.h>
#include <stddef.h>
#include <stdint.h>

#ifdef __cplusplus
#error "faasm.h is for C; it has no C++ form"
#endif

#ifdef __wasm__
#define FAASM_IMPORT(name) __attribute__((import_module("faasm"), import_name(#name)))
#define FAASM_EXPORT(name) __attribute__((export_name(#name)))
#else
#define FAASM_IMPORT(name)
#define FAASM_EXPORT(name)
#endif

// What a function defines; they are exported by these lines.
FAASM_EXPORT(main) int main(void);
FAASM_EXPORT(init) void init(void);

// State. "Read" and "write" are modes of the grant; write includes read.

// The size of key k. Read. Traps: bad key.
FAASM_IMPORT(state_size) uint32_t faasm_state_size(uint32_t k);
// The used length of key k's global value: the end of what was appended. Read. Waits: global. Traps: bad key.
FAASM_IMPORT(state_used) uint32_t faasm_state_used(uint32_t k);
// Maps the replica of key k behind all memory and gives its address, the same one each time; whole pages, so bytes past the size
// are memory too, which this host's calls share and no push takes along. Each load and store there is an operation on the replica:
// it waits as such, and a store that was granted for reading only traps `denied`. Read. Waits: replica. Traps: bad key, too many
// mappings (a 17th key), map full (more than 65,536 pages in all, which no session's limits leave room for).
FAASM_IMPORT(get_state) void *faasm_get_state(uint32_t k);
// Copies len bytes of key k's replica from off to ptr. Read. Waits: replica (a replica that is absent is filled first, and that waits
// for the global value; so it is with each call here that waits for the replica). Traps: bad key, state range.
FAASM_IMPORT(read_state) void faasm_read_state(uint32_t k, uint32_t off, void *ptr, uint32_t len);
// Copies len bytes at ptr into key k's replica at off. Write. Waits: replica. Traps: bad key, denied, state range.
FAASM_IMPORT(set_state) void faasm_set_state(uint32_t k, uint32_t off, const void *ptr, uint32_t len);
// Copies the whole replica of key k over its global value. Write. Waits: both tiers. Traps: bad key, denied.
FAASM_IMPORT(push_state) void faasm_push_state(uint32_t k);
// Copies the whole global value of key k over its replica. Write. Waits: both tiers. Traps: bad key, denied.
FAASM_IMPORT(pull_state) void faasm_pull_state(uint32_t k);
// As push_state, len bytes from off alone. Write. Waits: both tiers. Traps: bad key, denied, state range.
FAASM_IMPORT(push_state_offset) void faasm_push_state_offset(uint32_t k, uint32_t off, uint32_t len);
// As pull_state, len bytes from off alone. Write. Waits: both tiers. Traps: bad key, denied, state range.
FAASM_IMPORT(pull_state_offset) void faasm_pull_state_offset(uint32_t k, uint32_t off, uint32_t len);
// Appends len bytes at ptr to key k's global value in one step, and gives the used length before. Write. Waits: global. Traps: bad
// key, denied; append full where they don't fit in the size.
FAASM_IMPORT(append_state) uint32_t faasm_append_state(uint32_t k, const void *ptr, uint32_t len);

// Locks, at most 16 in one call. Another call may hold a read lock at the same time, and nobody any lock beside a write lock.

// Takes the read lock of key k's replica. Read. Waits. Traps: bad key, lock misuse (one is held already), too many locks.
FAASM_IMPORT(lock_state_read) void faasm_lock_state_read(uint32_t k);
// Takes the write lock of key k's replica. Write. Waits. Traps: bad key, denied, lock misuse (one is held already), too many locks.
FAASM_IMPORT(lock_state_write) void faasm_lock_state_write(uint32_t k);
// Releases the lock of key k's replica. Read. Traps: bad key, lock misuse (none is held).
FAASM_IMPORT(unlock_state) void faasm_unlock_state(uint32_t k);
// Takes the read lock of key k's global value. Read. Waits. Traps: bad key, lock misuse (one is held already), too many locks.
FAASM_IMPORT(lock_global_read) void faasm_lock_global_read(uint32_t k);
// Takes the write lock of key k's global value. Write. Waits. Traps: bad key, denied, lock misuse (as before), too many locks.
FAASM_IMPORT(lock_global_write) void faasm_lock_global_write(uint32_t k);
// Releases the lock of key k's global value. Read. Traps: bad key, lock misuse (none is held).
FAASM_IMPORT(unlock_global) void faasm_unlock_global(uint32_t k);

// Input, output and calls.

// The length of this call's input, at most 65,536. No traps.
FAASM_IMPORT(input_size) uint32_t faasm_input_size(void);
// Copies len bytes of the input from off to ptr. Traps: call range where the input ends before.
FAASM_IMPORT(read_input) void faasm_read_input(uint32_t off, void *ptr, uint32_t len);
// Appends len bytes at ptr to this call's output. Traps: output full where they don't fit in the function's `output`.
FAASM_IMPORT(write_output) void faasm_write_output(const void *ptr, uint32_t len);
// Calls function f with len bytes at ptr as input and doesn't wait for it; gives the child's number. Traps: bad function; chain
// full where a request with all calls below it would have more than 1,024 calls, or more than 2,097,152 bytes of inputs and rooms for
// output, or where this call has depth 8, a request having depth 1.
FAASM_IMPORT(chain_call) uint32_t faasm_chain_call(uint32_t f, const void *ptr, uint32_t len);
// Waits until child c has ended; gives its status times 2^32 plus its result. As often as you like. Traps: bad child.
FAASM_IMPORT(await_call) uint64_t faasm_await_call(uint32_t c);
// The length of the output of child c, also where it trapped. Traps: bad child, also where it wasn't awaited.
FAASM_IMPORT(output_size) uint32_t faasm_output_size(uint32_t c);
// Copies len bytes of the output of child c from off to ptr. Traps: bad child, also where it wasn't awaited; call range.
FAASM_IMPORT(read_output) void faasm_read_output(uint32_t c, uint32_t off, void *ptr, uint32_t len);

// Helpers

#define FAASM_HELPER __attribute__((unused)) static inline

// How a child ended: with a result; by a trap; for want of fuel; not begun, since its function is broken; for want of memory.
enum faasm_status { FAASM_DONE, FAASM_TRAP, FAASM_FUEL, FAASM_BROKEN, FAASM_WANT };

struct faasm_outcome {
    enum faasm_status status;
    int32_t result;  // what its `main` returned, and 0 where it isn't done
};

// Waits for child c and says how it ended.
FAASM_HELPER struct faasm_outcome faasm_await(uint32_t c) {
    uint64_t answer = faasm_await_call(c);
    return (struct faasm_outcome){(enum faasm_status)(answer >> 32), (int32_t)(uint32_t)answer};
}

// The replica of key k as a pointer to this type: FAASM_STATE(uint32_t, 0)[3] is its fourth number. What other calls write is seen
// at the next load that the compiler makes; make it a pointer to volatile where you wait for that.
#define FAASM_STATE(type, k) ((type *)faasm_get_state(k))

// Locks for the rest of the block that they stand in: FAASM_LOCK_GLOBAL_WRITE(0); unlocks where the block is left.
#define FAASM_LOCK_STATE_READ(k) FAASM_SCOPED(k, faasm_lock_state_read, faasm_leave_state)
#define FAASM_LOCK_STATE_WRITE(k) FAASM_SCOPED(k, faasm_lock_state_write, faasm_leave_state)
#define FAASM_LOCK_GLOBAL_READ(k) FAASM_SCOPED(k, faasm_lock_global_read, faasm_leave_global)
#define FAASM_LOCK_GLOBAL_WRITE(k) FAASM_SCOPED(k, faasm_lock_global_write, faasm_leave_global)

#define FAASM_SCOPED(k, lock, leave) FAASM_SCOPED_AT(k, lock, leave, __COUNTER__)
#define FAASM_SCOPED_AT(k, lock, leave, n) FAASM_SCOPED_AS(k, lock, leave, n)
#define FAASM_SCOPED_AS(k, lock, leave, n) \
    __attribute__((cleanup(leave), unused)) const uint32_t faasm_locked_##n = faasm_locked_by(lock, k)

FAASM_HELPER uint32_t faasm_locked_by(void (*lock)(uint32_t), uint32_t k) {
    lock(k);
    return k;
}

FAASM_HELPER void faasm_leave_state(const uint32_t *k) { faasm_unlock_state(*k); }

FAASM_HELPER void faasm_leave_global(const uint32_t *k) { faasm_unlock_global(*k); }

// Copies the front of the input, at most `room` bytes, and gives how many.
FAASM_HELPER uint32_t faasm_input(void *to, uint32_t room) {
    uint32_t size = faasm_input_size();
    if (size > room) size = room;
    faasm_read_input(0, to, size);
    return size;
}

// Appends a text to the output. The text ends at its zero byte, which isn't written.
FAASM_HELPER void faasm_print(const char *text) {
    uint32_t length = 0;
    while (text[length]) length++;
    faasm_write_output(text, length);
}

// Appends a number in decimal digits to the output.
FAASM_HELPER void faasm_print_unsigned(uint32_t n) {
    char digits[10];
    uint32_t first = sizeof digits;
    do {
        digits[--first] = (char)('0' + n % 10);
        n /= 10;
    } while (n);
    faasm_write_output(digits + first, sizeof digits - first);
}

FAASM_HELPER void faasm_print_signed(int32_t n) {
    if (n < 0) faasm_print("-");
    faasm_print_unsigned(n < 0 ? 0u - (uint32_t)n : (uint32_t)n);
}

// The compiler may call these four for copies of its own. Define FAASM_NO_MEMORY before the header to write your own.

#if defined(__wasm__) && !defined(FAASM_NO_MEMORY)
#define FAASM_OWN(name) __attribute__((weak, no_builtin(name)))

FAASM_OWN("memcpy") void *memcpy(void *restrict to, const void *restrict from, size_t n) {
    char *restrict t = to;
    const char *restrict f = from;
    for (size_t i = 0; i < n; i++) t[i] = f[i];
    return to;
}

FAASM_OWN("memmove") void *memmove(void *to, const void *from, size_t n) {
    char *t = to;
    const char *f = from;
    if ((uintptr_t)t <= (uintptr_t)f) {
        for (size_t i = 0; i < n; i++) t[i] = f[i];
    } else {
        while (n--) t[n] = f[n];
    }
    return to;
}

FAASM_OWN("memset") void *memset(void *to, int byte, size_t n) {
    unsigned char *t = to;
    for (size_t i = 0; i < n; i++) t[i] = (unsigned char)byte;
    return to;
}

FAASM_OWN("memcmp") int memcmp(const void *one, const void *other, size_t n) {
    const unsigned char *a = one, *b = other;
    for (size_t i = 0; i < n; i++) {
        if (a[i] != b[i]) return a[i] < b[i] ? -1 : 1;
    }
    return 0;
}

#undef FAASM_OWN
#endif

#endif
