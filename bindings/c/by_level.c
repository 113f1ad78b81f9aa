/* The program where it is installed for two levels of x86-64: runs the one of libexec/avcdec, beside the folder that this one stands in, that was
 * built for the higher level that the processor has. Words, standard streams and status are those of that program. */
#include <errno.h>
#include <stdio.h>
#include <string.h>
#include <unistd.h>

#define LONGEST_PATH 4096

int main(int argc, char **argv) {
    char own[LONGEST_PATH], program[LONGEST_PATH + 64];
    ssize_t length = readlink("/proc/self/exe", own, sizeof own - 1);
    (void)argc;
    if (length < 0) {
        fprintf(stderr, "avcdec: /proc/self/exe: %s\n", strerror(errno));
        return 127;
    }
    own[length] = '\0';
    for (int names = 0; names < 2; names++) { /* its own, and its folder's */
        char *last = strrchr(own, '/');
        if (last != NULL) {
            *last = '\0';
        }
    }
    snprintf(program, sizeof program, "%s/libexec/avcdec/%s/avcdec", own,
             __builtin_cpu_supports("x86-64-v3") ? "x86-64-v3" : "x86-64-v2");
    execv(program, argv);
    fprintf(stderr, "avcdec: %s: %s\n", program, strerror(errno));
    return 127;
}
