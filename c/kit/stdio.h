/* For the Rattle kit's compiler, which comes without headers: what c/ uses of <stdio.h>. */
int printf(const char *restrict, ...);
