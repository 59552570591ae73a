#ifndef SIGNAL_H_OF_INVAR
#define SIGNAL_H_OF_INVAR
typedef int sig_atomic_t;
#endif
