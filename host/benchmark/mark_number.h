/* A system call that Linux does not have: what the benchmark marks its stretches with under qemu. */
#define MARK_NUMBER 700007
