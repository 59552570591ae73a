#ifndef ERRNO_H_OF_INVAR
#define ERRNO_H_OF_INVAR
extern int errno;
#endif
