#undef assert
#ifdef NDEBUG
#define assert(test) ((void) 0)
#else
#define assert(test) ((void) (test))
#endif
