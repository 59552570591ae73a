#ifndef SYS_TYPES_H_OF_INVAR
#define SYS_TYPES_H_OF_INVAR
#include <stddef.h>
typedef long ssize_t;
typedef long off_t;
typedef int pid_t;
typedef unsigned int mode_t, uid_t, gid_t, u_int;
typedef unsigned char u_char;
typedef unsigned short u_short;
typedef unsigned long u_long;
#endif
