/* Permutes the start of the hash and prints the five words; then lends a row of four, which is refused.
 *
 *     ./build testbench
 *     cc -Iinclude -o target/permute examples/permute.c target/staticlib/libtestbench.a && target/permute
 */
#include "testbench.h"

#include <inttypes.h>
#include <stdio.h>

int main(void) {
    uint64_t row[5] = {0x00400c0000000100, 0, 0, 0, 0};
    printf("%" PRIu32 "\n", testbench_permute_row(row, 5));
    for (int i = 0; i < 5; i++) printf("%016" PRIx64 "\n", row[i]);
    printf("%" PRIu32 "\n", testbench_permute_row(row, 4));
    return 0;
}
