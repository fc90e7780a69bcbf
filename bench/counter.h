/* What the processor did for this process so far: its time and its cycles or, where the machine does not tell these, ticks of its time stamp counter. */
#ifndef COUNTER_H
#define COUNTER_H

struct reading {
    double seconds; /* processor time */
    double count;   /* cycles or ticks; 0 where the machine has neither */
};

struct reading read_counters(void);

/* What is counted: "cycles", "ticks", or "-" for nothing. */
const char *counter_unit(void);

/* Says in a line or two what is counted, and how it bears on figures in cycles. */
void print_counter(void);

#endif
