#ifndef STDARG_H_OF_INVAR
#define STDARG_H_OF_INVAR
typedef struct va_list_of_the_machine va_list;
void va_start(va_list list, ...);
void va_end(va_list list);
void va_copy(va_list to, va_list from);
extern int value_of_va_arg(va_list list);
#define va_arg(list, type) (*(type *) value_of_va_arg(list))
#endif
