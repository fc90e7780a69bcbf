/* Runs a program from its start to its end, with its input from a file and its output to one, and tells what it took. Where it does not end well, this program ends. */
#ifndef PROCESS_H
#define PROCESS_H

double processor_seconds(const char *program, const char *input, const char *output);
double peak_kibibytes(const char *program, const char *input, const char *output);

#endif
