/* For the Rattle kit's compiler, which comes without headers: what c/ uses of <stddef.h>. */
#ifndef ZP_KIT_STDDEF_H
#define ZP_KIT_STDDEF_H
typedef __SIZE_TYPE__ size_t;
#define NULL ((void *)0)
#endif
