/* For the Rattle kit's compiler, which comes without headers: what c/ uses of <unistd.h>. */
#include <stddef.h>
typedef long ssize_t;
ssize_t read(int, void *, size_t);
ssize_t write(int, const void *, size_t);
