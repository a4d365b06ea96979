/* The model as a shared library: loads the file that it is given, and calls it through pointers alone. */
#include "brb.h"
#include <dlfcn.h>
#include <stdio.h>
#include <string.h>

typedef struct brb_answer step_function(uint64_t *, size_t, uint64_t *, size_t, uint64_t, uint64_t, uint64_t, uint64_t,
                                        uint64_t, uint64_t);

/* C has no cast from a pointer to data, which dlsym gives, to one to a function. */
static step_function *step_of(void *library) {
    void *symbol = dlsym(library, "brb_step");
    step_function *step;
    memcpy(&step, &symbol, sizeof step);
    return symbol ? step : NULL;
}

int main(int count, char **arguments) {
    static uint64_t state[BRB_STATE_NUMBERS], room[BRB_LARGEST_ROOM];
    void *library = count == 2 ? dlopen(arguments[1], RTLD_NOW) : NULL;
    step_function *step = library ? step_of(library) : NULL;
    if (!step) {
        fprintf(stderr, "shared: %s\n", count == 2 ? dlerror() : "usage: shared LIBRARY");
        return 1;
    }
    step(state, BRB_STATE_NUMBERS, room, BRB_LARGEST_ROOM, BRB_CODE_RESET, 0, 32, 0, 0, 0);
    struct brb_answer answer =
        step(state, BRB_STATE_NUMBERS, room, BRB_LARGEST_ROOM, BRB_CODE_READ, 0, BRB_REGISTER_BRBIDR0_EL1, 0, 0, 0);
    printf("%llx\n", (unsigned long long)answer.value);
    return dlclose(library);
}
