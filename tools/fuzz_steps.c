// A harness for libFuzzer: `try-fuzz` links it with a static library of the crates, tools/steps_library.text.
//
// Each input is a script of `steps`: it is read, its events are made, and its text too, with no thread. An input is a fault where that
// crashes, where the status is none that may come with memory at hand, or where at status 2 the line is none of the input.
#include <stddef.h>
#include <stdint.h>
#include <stdio.h>
#include <stdlib.h>

extern uint8_t ntcache_steps(const uint8_t *script, size_t size, uint32_t *line);

static size_t lines_of(const uint8_t *script, size_t size)
{
    size_t lines = 0;
    for (size_t at = 0; at < size; at++)
        lines += script[at] == '\n';
    return lines + (size > 0 && script[size - 1] != '\n');
}

static void fault(const char *what, unsigned number)
{
    fprintf(stderr, "fault: %s %u\n", what, number);
    abort();
}

int LLVMFuzzerTestOneInput(const uint8_t *script, size_t size)
{
    uint32_t line = 0;
    uint8_t status = ntcache_steps(script, size, &line);
    if (status == 2 && (line < 1 || line > lines_of(script, size)))
        fault("a line that the script does not have:", line);
    if (status != 0 && status != 2 && status != 7)
        fault("a status that may not come:", status);
    return 0;
}
