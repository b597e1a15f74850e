/* Malluvom's calls for C: a proved judge of CXL0 logs. Link with libcapi.a, which `tools/build capi` builds at
 * target/staticlib/libcapi.a.
 *
 * A buffer is a pointer and a length; the length of `scratch` counts 64-bit numbers. A pointer may be NULL where its
 * length is 0. Buffers must not overlap. Nothing else is asked of the arguments. The calls keep no state, so several
 * threads may make them at once, each on its own buffers.
 *
 * Each answer is one number: bits 0 to 7 are the number of a refusal, or 0 if there is none, and a refusal leaves all
 * other bits 0 and every buffer as it was. Bits that are not named are 0.
 *
 * A log is of edition 1 or 2. They differ in the tag of the first field, 1 or 6, which is the log's first byte, and in
 * how many bytes a value has, 2 or 4, low byte first. */
#ifndef CXL0_H
#define CXL0_H

#include <stddef.h>
#include <stdint.h>

#ifdef __cplusplus
extern "C" {
#endif

/* Refusals, in the words of the glossary. */
enum cxl0_refusal {
    CXL0_BUFFER_TOO_SHORT = 1,
    CXL0_TRUNCATED = 2,
    CXL0_UNEXPECTED_TAG = 3,
    CXL0_WRONG_LENGTH = 4,
    CXL0_BAD_TOPOLOGY = 5,
    CXL0_BAD_OWNER = 6,
    CXL0_TOO_MANY = 7,
    CXL0_UNKNOWN_OPERATION = 8,
    CXL0_NO_SUCH_MACHINE = 9,
    CXL0_NO_SUCH_LOCATION = 10,
    CXL0_RESERVED_NOT_ZERO = 11,
    CXL0_TRAILING_BYTES = 12,
    CXL0_BAD_SCHEDULE = 13,
    CXL0_BAD_INITIAL_VALUE = 14,
    CXL0_BAD_MACHINE_SET = 15,
    CXL0_BAD_KIND = 16,
    CXL0_VALUE_TOO_LARGE = 17
};

/* A verdict file has at most so many bytes, which the output must have after the offset. */
#define CXL0_FILE_MOST 1544
/* The scratch must have at least so many 64-bit numbers. */
#define CXL0_SCRATCH_LEAST 4096
/* An accepted log has at most so many bytes, in edition 2; in edition 1 at most 1,512. */
#define CXL0_LOG_MOST 2088
/* The output of a conversion must have at least so many bytes. */
#define CXL0_CONVERT_LEAST 4096

/* Puts one field after the first `used` bytes of `buf`; no other byte changes. Bits 8 to 39: the new count of used
 * bytes. docs/FORMAT.md has the payload of each tag. That of a location, tag 2, is its owner; unless it is 0, the
 * initial value of its memory; and unless it is the owner's, the kind of its memory, 1 volatile or 2 persistent:
 * {2, 7, 0, 1}, or {2, 7, 0, 0, 0, 1} in edition 2, is in the volatile part of the memory of machine 2, which is
 * persistent, and starts as 7. That of a set crash, tag 3, is operation 11, a machine byte 0, the set of two machines
 * or more, with bit i - 1 for machine i, and a value of 0: {11, 0, 3, 0, 0}, or {11, 0, 3, 0, 0, 0, 0} in edition 2,
 * crashes machines 1 and 2 in one step. */
uint64_t cxl0_record(uint8_t *buf, size_t buf_len, size_t used, uint8_t tag, const uint8_t *payload,
                     size_t payload_len);

/* Reads a log to its end. Bits 8 to 15: machines, 16 to 23: locations, 24 to 31: events. */
uint64_t cxl0_read(const uint8_t *log, size_t log_len);

/* Writes an accepted log in the other edition into `out` from its first byte on; the rest of `out` is as it was. Bits 8
 * to 31: the length of what is written. A value over 65,535 on the way to edition 1 gives CXL0_VALUE_TOO_LARGE, after
 * all other refusals. There and back gives the same bytes, and the verdict is the same in both. */
uint64_t cxl0_convert(const uint8_t *log, size_t log_len, uint8_t *out, size_t out_len);

/* Follows a log with the silent steps of a verdict file that says allowed. Bit 8: yes; if it is 0, bits 16 to 23: the
 * number of events passed before the first thing that is not possible. */
uint64_t cxl0_replay(const uint8_t *log, size_t log_len, const uint8_t *schedule, size_t schedule_len);

/* Judges a log and writes the verdict file into `out` from `offset` on; outside the file `out` is as it was, and
 * `scratch` is all zero afterwards. An allowed log gets the shortest schedule: no run has fewer silent steps, and of
 * those with as few its numbers are smallest at the first difference. Bit 8: allowed, bits 16 to 23: the first
 * impossible event, counted from 1, or 0, 24 to 39: the number of silent steps, 40 to 55: the length of the file. */
uint64_t cxl0_judge(const uint8_t *log, size_t log_len, uint8_t *out, size_t out_len, size_t offset,
                    uint64_t *scratch, size_t scratch_len);

/* Says which change requests are in the library: bit 8 for W-201, bit 9 for W-202 and so on, up to bit 63 for W-256.
 * With W-201 to W-206 and W-211 it answers 0x43f00. */
uint64_t cxl0_version(void);

static inline unsigned cxl0_refused(uint64_t answer) { return answer & 0xff; }

static inline size_t cxl0_record_count(uint64_t answer) { return answer >> 8 & 0xffffffff; }

static inline unsigned cxl0_read_machines(uint64_t answer) { return answer >> 8 & 0xff; }
static inline unsigned cxl0_read_locations(uint64_t answer) { return answer >> 16 & 0xff; }
static inline unsigned cxl0_read_events(uint64_t answer) { return answer >> 24 & 0xff; }

static inline size_t cxl0_convert_length(uint64_t answer) { return answer >> 8 & 0xffffff; }

static inline int cxl0_replay_yes(uint64_t answer) { return answer >> 8 & 1; }
static inline unsigned cxl0_replay_passed(uint64_t answer) { return answer >> 16 & 0xff; }

static inline int cxl0_judge_allowed(uint64_t answer) { return answer >> 8 & 1; }
static inline unsigned cxl0_judge_event(uint64_t answer) { return answer >> 16 & 0xff; }
static inline unsigned cxl0_judge_steps(uint64_t answer) { return answer >> 24 & 0xffff; }
static inline unsigned cxl0_judge_length(uint64_t answer) { return answer >> 40 & 0xffff; }

/* Whether a version has a request, 201 for W-201. None has one below 201 or above 256. */
static inline int cxl0_version_has(uint64_t version, unsigned request) {
    return request >= 201 && request <= 256 && (version >> (request - 193) & 1);
}

#ifdef __cplusplus
}
#endif

#endif
