/* For a library that is loaded before the C library and counts the program's calls in `calls`: at
   the end of the run the count is written to the file CALLS, if given. */
#include <stdatomic.h>
#include <stdio.h>
#include <stdlib.h>
#include <sys/syscall.h>
#include <unistd.h>

static atomic_ulong calls;

/* The number in an environment variable; 0 without one. */
static unsigned long number_in(const char *name)
{
    const char *text = getenv(name);
    return text ? strtoul(text, NULL, 10) : 0;
}

static void write_calls(void)
{
    unsigned long met = calls;
    const char *name = getenv("CALLS");
    FILE *file = name ? fopen(name, "w") : NULL;
    if (file) {
        fprintf(file, "%lu\n", met);
        fclose(file);
    }
}

/* Called by the library's `_exit`, with which the program ends. */
__attribute__((noreturn)) static void end_counted(int status)
{
    write_calls();
    for (;;)
        syscall(SYS_exit_group, status);
}
