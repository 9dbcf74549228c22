/* The device of kms, for C programs: a script is executed by one thread, and what the program `kms` would write is put into
 * memory of the caller. docs/LIBRARY.md shows a test of a compositor; docs/SCRIPTS.md has the grammar of scripts and reports.
 *
 * For every call (kms_audit has no text, and no `out`):
 *  - No pointer may be null, also where its length is 0, and no two of the memories that a call is given may overlap. `told` is
 *    aligned as its type asks for, and `script` and `out` may stand anywhere.
 *  - `size` and `room` are the bytes that are there, 0 or more and below 2^63. An input of more than 67,108,864 bytes is KMS_FAULT with
 *    KMS_LIMIT at line 0. In it a script may have 1,048,576 bytes, each of at most 16 clients 4096 commands (4094 for
 *    kms_suspend, which adds two), and all clients 4096 labels; KMS_LIMIT is told of the first line beyond.
 *    docs/DEVICE.md has the other limits.
 *  - The script is read and nothing else is done with it. It need not end in a zero byte.
 *  - The text is put at the front of the `room` bytes at `out`; all bytes behind it stay as they were. No zero byte is put
 *    behind it. Where the text has more than `room` bytes, nothing is put, the status is KMS_ROOM, and `length` is the room that
 *    the text needs: the same call with so much room gives the same text.
 *  - With any other status than KMS_DRAINED, KMS_STALLED and KMS_OPEN no byte at `out` is changed.
 *  - Nothing is kept from call to call. There is nothing to free. Several threads may call at once.
 *  - Memory is taken by malloc and given back before the call returns. A call may take as much stack as a thread has by
 *    default. It is not for signal handlers. */
#ifndef KMS_H
#define KMS_H

#include <stddef.h>
#include <stdint.h>

#ifdef __cplusplus
extern "C" {
#endif

/* How a call ended: the numbers that the program ends with. */
enum kms_status {
    KMS_DRAINED = 0,  /* the text is whole; all that the script asked for is done */
    KMS_RIGHT = 0,    /* of kms_audit: each line of the report is right */
    KMS_ROOM = 2,     /* the text is longer than the room for it: `length` bytes are needed */
    KMS_OPTIONS = 3,  /* there are no such options */
    KMS_FAULT = 4,    /* the input's first fault: `line` and `why` */
    KMS_STALLED = 5,  /* the text is whole; a fence that nobody signals is waited for */
    KMS_MEMORY = 6,   /* malloc gave nothing */
    KMS_ILLEGAL = 7,  /* of kms_replay: the step at `place` is the first that is not legal */
    KMS_OPEN = 8,     /* of kms_replay: the text is whole; the schedule ends before the history does */
    KMS_WRONG = 9,    /* of kms_audit: the report's line `line` is the first that is not right */
    KMS_CLOSED = 10   /* of kms_suspend: what the object `object` shows cannot be brought back */
};

/* Why a line of the input is its first fault. */
enum kms_why {
    KMS_BYTES = 1, /* a byte that no line may have */
    KMS_CUT = 2,   /* no line feed behind the last line */
    KMS_FORM = 3,  /* not the form of a line that may stand there */
    KMS_LABEL = 4, /* a label that names nothing, or is made twice */
    KMS_LIMIT = 5  /* more than there may be */
};

/* What a report has besides its lines: one number, or the sum of both. */
enum kms_options {
    KMS_TRACE = 1, /* the steps, in order of time */
    KMS_PPM = 2    /* each frame as a portable pixmap, behind the line of its latch */
};

/* What a call tells. A number that says nothing of an ending is 0. */
struct kms_told {
    uint32_t status; /* an enum kms_status */
    uint32_t line;   /* of KMS_FAULT: counted from 1; 0 is the whole input. Of KMS_WRONG: counted from 1 in the report */
    uint32_t why;    /* of KMS_FAULT: an enum kms_why */
    uint32_t object; /* of KMS_CLOSED: the object's id */
    uint64_t place;  /* of KMS_ILLEGAL: the step's place in the schedule, counted from 1 */
    size_t length;   /* how many bytes the text has, at KMS_ROOM too */
};

/* The report of a script, as `kms one` writes it. A line `R CLIENT COMMAND PLACE ANSWER` is the reply to a command. Where the command
 * is refused, ANSWER is the errno's name and the number of the rule in docs/DEVICE.md, as in `R 1 7 6 ENOSPC 14`; `ENOMEM events 25
 * USED` has a word between the two, and `EBUSY 26 OBJECT K` has more behind them. No other ANSWER begins with a capital letter. */
void kms_one(const uint8_t *script, size_t size, uint32_t options, uint8_t *out, size_t room, struct kms_told *told);

/* The report of a script by the schedule behind it, as `kms replay` writes it. */
void kms_replay(const uint8_t *script, size_t size, uint32_t options, uint8_t *out, size_t room, struct kms_told *told);

/* The replies alone, as the report of `kms one` has them. No frame is made. Proved is that the text is the replies of a history that
 * one thread does; that it is, byte for byte, the lines of that report that begin with R, and ends as `kms_one` does, is tried
 * (checks/library.sh). */
void kms_verdicts(const uint8_t *script, size_t size, uint8_t *out, size_t room, struct kms_told *told);

/* The report of a device that is turned off behind the script's history and brought back, as `kms suspend` writes it. */
void kms_suspend(const uint8_t *script, size_t size, uint8_t *out, size_t room, struct kms_told *told);

/* The script that says by atomic requests what a script with older calls says, as `kms legacy` writes it. */
void kms_legacy(const uint8_t *script, size_t size, uint8_t *out, size_t room, struct kms_told *told);

/* Whether a report is right by the device of one thread, as `kms audit` says it; whoever wrote it. The input is a script, a line
 * `report` and a report without pixmaps. The status is KMS_RIGHT where each line of the report is right; KMS_WRONG, with `line`;
 * KMS_FAULT, with `line` and `why`, at a fault of the script, and KMS_FORM at the line behind its last where the line `report` is
 * missing; or KMS_MEMORY. */
void kms_audit(const uint8_t *input, size_t size, struct kms_told *told);

#ifdef __cplusplus
}
#endif

#endif
