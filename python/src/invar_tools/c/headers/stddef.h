#ifndef STDDEF_H_OF_INVAR
#define STDDEF_H_OF_INVAR
typedef unsigned long size_t;
typedef long ptrdiff_t;
typedef int wchar_t;
#define NULL ((void *) 0)
#endif
