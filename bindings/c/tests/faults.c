/* faults: tells each fault for which the library has a name, a line each: its number, a tab, its name. */
#include <avcdec.h>
#include <stdio.h>

/* No fault has a greater number. */
enum { LAST = 65535 };

int main(void) {
    for (uint32_t fault = 0; fault <= LAST; fault++) {
        char name[AVCDEC_NAME_SIZE];
        if (avcdec_fault_name(fault, name, sizeof name) == AVCDEC_OK)
            printf("%u\t%s\n", (unsigned)fault, name);
    }
    return 0;
}
