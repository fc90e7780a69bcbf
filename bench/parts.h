/* The parts of the table. Each first compares what it has with plain C, over many lengths and those that it times, and ends the program where the two differ. */
#ifndef PARTS_H
#define PARTS_H

void permutation_rows(int pairs);
void sponge_rows(int pairs);
void firmware_rows(int pairs);
void hub_rows(int pairs);

/* Runs the two programs; the folder is for scripts, and for what is printed for them. */
void script_rows(int pairs, const char *proved, const char *plain, const char *folder);

#endif
