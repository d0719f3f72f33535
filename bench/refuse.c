/* Refuses one request for memory, that of the number in REFUSE, and at the end writes how many there were to the file that REQUESTS names. */
#include <stdio.h>
#include <stdlib.h>
#include <string.h>
#include <sys/syscall.h>
#include <unistd.h>

extern void *__libc_malloc(size_t);
extern void *__libc_realloc(void *, size_t);

static unsigned long requests, refused;

__attribute__((constructor)) static void begin(void) {
    const char *text = getenv("REFUSE");
    refused = text ? strtoul(text, NULL, 10) : 0;
    requests = 0;
}

void *malloc(size_t size) {
    return ++requests == refused ? NULL : __libc_malloc(size);
}

void *realloc(void *block, size_t size) {
    return ++requests == refused ? NULL : __libc_realloc(block, size);
}

__attribute__((destructor)) static void tell(void) {
    unsigned long count = requests;
    const char *name = getenv("REQUESTS");
    FILE *file = name ? fopen(name, "w") : NULL;
    refused = 0;
    if (file) {
        fprintf(file, "%lu\n", count);
        fclose(file);
    }
}

/* The program ends here, where no destructor runs. */
void _exit(int status) {
    tell();
    syscall(SYS_exit_group, status);
    __builtin_unreachable();
}
