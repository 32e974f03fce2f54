/* The part of C's headers that the examples need, for the toolchain's own compiler, which comes without any. */
int printf(const char *, ...);
