#ifndef SETJMP_H_OF_INVAR
#define SETJMP_H_OF_INVAR
typedef struct jump_of_the_machine jmp_buf;
#endif
