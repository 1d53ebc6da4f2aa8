/* Coverage of the archive for the fuzzer. */
#include <stdint.h>

/* Watches from now on which instructions of the archive an input is the first to reach. */
void watch_coverage(const char *program);
