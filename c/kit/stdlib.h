/* For the Rattle kit's compiler, which comes without headers: what c/ uses of <stdlib.h>. */
#include <stddef.h>
void *realloc(void *, size_t);
void exit(int) __attribute__((noreturn));
