// Makes a host call in `init`.
#include "faasm.h"

void init(void) { faasm_input_size(); }

int main(void) { return 0; }
