#ifndef CTYPE_H_OF_INVAR
#define CTYPE_H_OF_INVAR
int isdigit(int byte), isalpha(int byte), isalnum(int byte), isspace(int byte), isupper(int byte), islower(int byte);
int toupper(int byte), tolower(int byte);
#endif
