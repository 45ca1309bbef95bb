/* A loader of compiled modules: lays out the object's sections, relocates them, and asks SecVisor. */
#ifndef LOADER_H
#define LOADER_H
#include "kernel.h"

struct export { const char *name; void *at; };
/* Each guest's own list, which ends by a name of 0. */
extern const struct export exports[];

struct module { u64 text, pages, data, begin; };
/* Reads the object from the disk's first sectors to `object`. */
void fetch_object(u64 object, u32 sectors);
/* Relocates the object to fresh pages; `begin` is the address of its symbol `module_begin`. */
struct module place(u64 object);
/* Reads the object from the disk to three fresh pages, and places it. */
struct module fetch_module(void);
#endif
