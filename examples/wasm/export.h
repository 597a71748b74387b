/* What is exported: a function of integers under its own name. A native compiler sees an ordinary function. */
#ifdef __wasm__
#define EXPORT(name) __attribute__((export_name(#name)))
#else
#define EXPORT(name)
#endif

typedef unsigned char u8;
typedef unsigned int u32;
typedef unsigned long long u64;
