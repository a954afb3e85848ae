// Makes the host calls that its input lists, one after another, and returns how many; so guests/wrong_calls makes any of them with any
// numbers. Its memory is three pages: one of its own, one with the input, one of zeros; a key that is mapped lies behind them.
#include "faasm.h"

enum { INPUT = 65536, PAGES = 3 };  // the address of the input; all pages of memory
enum { STORE = 23, LOAD, RELAY };    // what a step may do beside the 23 host calls, which have the numbers 0 to 22

// The input: how many steps, the steps, and then bytes for their buffers.
struct script {
    uint32_t count;
    struct step {
        uint32_t call, a, b, c, d;
    } steps[];
};

static void *at(uint32_t address) { return (void *)(uintptr_t)address; }

static void on_state(const struct step *s) {
    switch (s->call) {
    case 0: faasm_state_size(s->a); break;
    case 1: faasm_state_used(s->a); break;
    case 2: faasm_get_state(s->a); break;
    case 3: faasm_read_state(s->a, s->b, at(s->c), s->d); break;
    case 4: faasm_set_state(s->a, s->b, at(s->c), s->d); break;
    case 5: faasm_push_state(s->a); break;
    case 6: faasm_pull_state(s->a); break;
    case 7: faasm_push_state_offset(s->a, s->b, s->c); break;
    case 8: faasm_pull_state_offset(s->a, s->b, s->c); break;
    case 9: faasm_append_state(s->a, at(s->b), s->c); break;
    case 10: faasm_lock_state_read(s->a); break;
    case 11: faasm_lock_state_write(s->a); break;
    case 12: faasm_unlock_state(s->a); break;
    case 13: faasm_lock_global_read(s->a); break;
    case 14: faasm_lock_global_write(s->a); break;
    case 15: faasm_unlock_global(s->a); break;
    }
}

static void on_calls(const struct step *s) {
    switch (s->call) {
    case 16: faasm_input_size(); break;
    case 17: faasm_read_input(s->a, at(s->b), s->c); break;
    case 18: faasm_write_output(at(s->a), s->b); break;
    case 19: faasm_chain_call(s->a, at(s->b), s->c); break;
    case 20: faasm_await_call(s->a); break;
    case 21: faasm_output_size(s->a); break;
    case 22: faasm_read_output(s->a, s->b, at(s->c), s->d); break;
    case STORE: *(volatile uint8_t *)at(s->a) = (uint8_t)s->b; break;
    case LOAD: (void)*(volatile uint8_t *)at(s->a); break;
    }
}

int main(void) {
    if (__builtin_wasm_memory_grow(0, PAGES - 1) != 1) __builtin_trap();
    faasm_read_input(0, at(INPUT), faasm_input_size());
    const struct script *script = at(INPUT);
    for (uint32_t i = 0; i < script->count; i++) {
        const struct step *s = &script->steps[i];
        if (s->call == RELAY) {  // ends with what child `a` came to: one more than its result, or 100 times its status
            struct faasm_outcome end = faasm_await(s->a);
            return end.status == FAASM_DONE ? end.result + 1 : 100 * (int)end.status;
        }
        if (s->call < 16) on_state(s);
        else on_calls(s);
    }
    return (int)script->count;
}
