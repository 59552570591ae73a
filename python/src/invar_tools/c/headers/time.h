#ifndef TIME_H_OF_INVAR
#define TIME_H_OF_INVAR
#include <stddef.h>
typedef long time_t;
typedef long clock_t;
#define CLOCKS_PER_SEC 1000000
#endif
