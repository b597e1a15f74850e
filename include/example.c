/* Judges a log from standard input and prints its verdict, as the verdict program does:
 *     gcc -Iinclude include/example.c target/staticlib/libcapi.a -o example && ./example <examples/marked/04.log */
#include <stdio.h>

#include "cxl0.h"

int main(void) {
    /* More bytes than any accepted log has; what stands after them would not change the refusal. */
    static uint8_t log[2 * CXL0_LOG_MOST];
    static uint8_t out[CXL0_FILE_MOST];
    static uint64_t scratch[CXL0_SCRATCH_LEAST];
    size_t length = fread(log, 1, sizeof log, stdin);
    uint64_t answer = cxl0_judge(log, length, out, sizeof out, 0, scratch, CXL0_SCRATCH_LEAST);
    if (cxl0_refused(answer)) {
        printf("number %u\n", cxl0_refused(answer));
    } else if (!cxl0_judge_allowed(answer)) {
        printf("impossible %u\n", cxl0_judge_event(answer));
    } else {
        printf("allowed %u\n", cxl0_judge_steps(answer));
        for (unsigned step = 0; step < cxl0_judge_steps(answer); step++) {
            const uint8_t *field = out + 5 + 6 * step;
            printf("%u %u %u\n", field[3], field[4], field[5]);
        }
    }
    puts("end");
    return 0;
}
