#pragma once
#include <stddef.h>
void *malloc(size_t);
void *calloc(size_t, size_t);
void free(void *);
_Noreturn void exit(int);
unsigned long long strtoull(const char *, char **, int);
