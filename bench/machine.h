/* Is this a machine, or a program that plays one? */
#ifndef BENCH_MACHINE_H
#define BENCH_MACHINE_H

/* Says why times would mean nothing here, or NULL where nothing speaks against them. */
const char *emulated(void);

#endif
