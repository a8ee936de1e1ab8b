/* The function of the C library that stands behind one of the same name here. */
#include <dlfcn.h>

#define NEXT(name) static __typeof__(&name) next; if (!next) next = (__typeof__(&name)) dlsym(RTLD_NEXT, #name)
