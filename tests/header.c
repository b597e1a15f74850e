/* What include/cxl0.h says beside the proved contracts: the helper of the version, and NULL where a length is 0. Prints
 * what does not hold. */
#include <stdio.h>

#include "cxl0.h"

static int faults;

static void hold(int fact, const char *words) {
    if (!fact) {
        printf("does not hold: %s\n", words);
        faults++;
    }
}
#define HOLD(fact) hold(fact, #fact)

static void version(void) {
    const uint64_t every = ~(uint64_t)0;
    uint64_t found = 0;
    for (unsigned request = 201; request <= 256; request++) {
        found |= (uint64_t)cxl0_version_has(cxl0_version(), request) << (request - 201);
    }
    HOLD(cxl0_version() == 0x43f00 && found == 0x43f);
    HOLD(cxl0_refused(cxl0_version()) == 0);
    HOLD(cxl0_version_has(every, 201) && cxl0_version_has(every, 256));
    HOLD(!cxl0_version_has(every, 0) && !cxl0_version_has(every, 200) && !cxl0_version_has(every, 257));
}

static void null_where_the_length_is_0(void) {
    uint8_t log[] = {1, 2, 0, 1, 0, 0, 0, 0};
    HOLD(cxl0_read(NULL, 0) == CXL0_TRUNCATED);
    HOLD(cxl0_record(NULL, 0, 0, 1, log + 3, 2) == CXL0_BUFFER_TOO_SHORT);
    HOLD(cxl0_record(NULL, 0, 0, 4, NULL, 0) == CXL0_UNEXPECTED_TAG);
    HOLD(cxl0_record_count(cxl0_record(log, sizeof log, 5, 4, NULL, 0)) == sizeof log);
    HOLD(cxl0_read_machines(cxl0_read(log, sizeof log)) == 1);
    HOLD(cxl0_convert(NULL, 0, NULL, 0) == CXL0_BUFFER_TOO_SHORT);
    HOLD(cxl0_replay(log, sizeof log, NULL, 0) == CXL0_BAD_SCHEDULE);
    HOLD(cxl0_replay(NULL, 0, NULL, 0) == CXL0_TRUNCATED);
    HOLD(cxl0_judge(NULL, 0, NULL, 0, 0, NULL, 0) == CXL0_BUFFER_TOO_SHORT);
}

int main(void) {
    version();
    null_where_the_length_is_0();
    return faults != 0;
}
