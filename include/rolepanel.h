/*
 * The role panel, for C and C++. Link librolepanel.a: docs/LINKING.md says how, and what each refusal asks of whom.
 *
 * Each call answers a struct by value. Its first field, code, is 0 where the call is accepted, and otherwise the
 * number of the refusal; a refusal returns zeros beside its number and leaves every lent buffer as it was lent.
 * Refusals are tested in the order given with each call, and the first that applies is answered.
 * What is promised here is proved for everything that can be lent, whatever stands in the buffers.
 *
 * Buffers belong to the caller. A pointer and the length after it, in items and not in bytes, lend a buffer for the
 * time of the call: nothing is kept, nothing is freed, nothing is allocated. The caller sees to it that
 *   - each pointer is that of as many items as its length says, aligned for them, and never null, also where the
 *     length is 0;
 *   - no two buffers of one call overlap;
 *   - nobody else writes to a lent buffer, or reads one that the call may write (no const), until the call returns.
 * A length that the call does not expect is refused, not read past. The library has no state of its own: calls on
 * different buffers may run at the same time.
 *
 * The archive is for x86-64 (ELF, System V calling convention). From outside it needs memcpy and memset, and nothing
 * else.
 *
 * Users u run from 0 to n - 1, permissions p from 0 to m - 1, candidate roles k from 0 to c - 1; n is 1 to 128, m is
 * 1 to 256, c is at most 128. A set has item i as bit i mod 64 of its word i / 64, bit 0 lowest; panel_has tests one.
 *
 * The record has PANEL_RECORD_WORDS words. It may be copied, stored and lent again. Its words have the machine's byte
 * order, so a stored record has each word's lowest byte first; who reads it on a machine that has the highest first
 * turns each word round. Its parts, where unused words and bits are zero:
 *   PANEL_AT_N: n; PANEL_AT_M: m; PANEL_AT_C: c, 1 word each
 *   PANEL_AT_STANDING: the set of standing roles, 2 words
 *   PANEL_AT_CREW + 4u: crew row of user u, 4 words
 *   PANEL_AT_SETS + 4k: permission set of role k, 4 words
 *   PANEL_AT_PERMISSIONS + 4k: direct permissions of k, 4 words
 *   PANEL_AT_MEMBERS + 2k: direct members of k, 2 words
 *   PANEL_AT_JUNIORS + 2k: immediate juniors of k, 2 words
 * It is sound when its header and crew rows keep the limits, its candidates are those mined from its crew rows, its
 * last three parts are the building of its standing roles, each permission in a crew row is covered by a standing
 * role, and everything else is zero. Every call that is accepted leaves it so.
 *
 * After an accepted panel_mine any list of strikes, restorations, eliminations and reviews on that record, refused ones
 * included, leaves the standing roles and gives the answers of the customer's plain machine, since each call is proved
 * to be one step of it. Then everyone is authorised for exactly what the crew list grants, and every word is what
 * building afresh gives: the customer's condition 3, crates/model/specs/Claim.antt, `Condition3`.
 */
#ifndef ROLEPANEL_H
#define ROLEPANEL_H

#include <stddef.h>
#include <stdint.h>

/* CHANGELOG.md says what each version brought, and what a caller has to do about it. */
#define PANEL_VERSION "1.1.0"
#define PANEL_VERSION_MAJOR 1
#define PANEL_VERSION_MINOR 1
#define PANEL_VERSION_PATCH 0

/*
 * Lengths: the record and the reader's buffer in words; in bytes, the longest text that the reader looks at, and the
 * writer's buffer that takes the crew text of any record.
 */
#define PANEL_RECORD_WORDS 2056
#define PANEL_ROWS_WORDS 512
#define PANEL_TEXT_BYTES 16384
#define PANEL_CREW_BYTES 8735

/* Where the parts of a record start. */
#define PANEL_AT_N 0
#define PANEL_AT_M 1
#define PANEL_AT_C 2
#define PANEL_AT_STANDING 4
#define PANEL_AT_CREW 8
#define PANEL_AT_SETS 520
#define PANEL_AT_PERMISSIONS 1032
#define PANEL_AT_MEMBERS 1544
#define PANEL_AT_JUNIORS 1800

/* The numbers that code can be. */
#define PANEL_ACCEPTED 0
#define PANEL_REFUSED_LENGTH 1     /* the record's length is not 2,056 words */
#define PANEL_REFUSED_LIMITS 2     /* n or m is outside its limits */
#define PANEL_REFUSED_CREW 3       /* crew words not 4n (the reader: buffer not 512 words), or a bit at m or above */
#define PANEL_REFUSED_CANDIDATES 4 /* more than 128 candidates */
#define PANEL_REFUSED_UNSOUND 5    /* the record is not sound */
#define PANEL_REFUSED_NUMBER 6     /* u, p or k is not below n, m or c */
#define PANEL_REFUSED_STANDING 7   /* strike of an absent role, or restoring one that stands */
#define PANEL_REFUSED_BARE 8       /* the role can't be struck: a grant would be left bare */
#define PANEL_REFUSED_RANGE 9      /* a weight or the tolerance is outside its range */
#define PANEL_REFUSED_TEXT 10      /* the text breaks its form, more bytes follow, or it is over 16,384 bytes */
#define PANEL_REFUSED_SHORT 11     /* the writer's buffer is shorter than the text */

/*
 * The memory budget, in bytes; `make host-test` fails where more is needed. PANEL_CODE_BYTES is for the archive's code
 * and constants; it has no data that is written. PANEL_STACK_MINE is what panel_mine needs of stack below its caller's
 * frame, and so on for each call; PANEL_STACK_ANY is the largest of these. They are measured, on the worst lists and
 * with glibc's memcpy and memset; an interrupt that runs on the same stack comes on top.
 */
#define PANEL_CODE_BYTES 49152
#define PANEL_STACK_ANY 38912
#define PANEL_STACK_MINE 23552
#define PANEL_STACK_STRIKE 23552
#define PANEL_STACK_RESTORE 23552
#define PANEL_STACK_ELIMINATE 38912
#define PANEL_STACK_REVIEW 23552
#define PANEL_STACK_QUALITY 23552
#define PANEL_STACK_MAY 23552
#define PANEL_STACK_READ_CREW 5120
#define PANEL_STACK_WRITE_CREW 23552

/*
 * Whether item i is in the set that starts at this word, as 1 or 0: panel_has(&rec[PANEL_AT_STANDING], k) says whether
 * role k stands. i is below 128 in a set of users or roles, below 256 in one of permissions. Shifting the first word
 * by i would be undefined from i = 64 on.
 */
static inline uint64_t panel_has(const uint64_t *set, uint64_t i) {
    return set[i / 64] >> (i % 64) & 1;
}

#ifdef __cplusplus
extern "C" {
#endif

struct panel_mine_answer {
    uint64_t code;
    uint64_t candidates; /* c */
};

struct panel_strike_answer {
    uint64_t code;
};

struct panel_restore_answer {
    uint64_t code;
};

struct panel_eliminate_answer {
    uint64_t code;
    uint64_t removed;  /* how many roles were struck */
    uint64_t examined; /* how many were taken up */
};

struct panel_review_answer {
    uint64_t code;
    uint64_t restored; /* how many roles were restored */
    uint64_t examined; /* how many were taken up */
};

struct panel_quality_answer {
    uint64_t code;
    uint64_t quality; /* q, at most 57,408,000 */
};

struct panel_may_answer {
    uint64_t code;
    uint64_t allowed; /* 1 or 0 */
};

struct panel_crew_read {
    uint64_t code;
    uint64_t n;
    uint64_t m;
};

struct panel_crew_written {
    uint64_t code;
    uint64_t length; /* bytes of the text, at most PANEL_CREW_BYTES */
};

/*
 * Mines the candidate roles of a crew list of n users and m permissions, four words to a user, and writes the whole
 * record with all candidates standing; what was in it before is not looked at. Candidates are the nonempty
 * intersections of one or more crew rows, each once, numbered by growing value.
 * Refusals: 1, 2, 3, 4.
 */
struct panel_mine_answer panel_mine(uint64_t n, uint64_t m, const uint64_t *crew, size_t crew_len, uint64_t *rec,
                                    size_t rec_len);

/*
 * Strikes role k. Accepted exactly when k stands and each grant that it covers is covered by another standing role.
 * The record is then the one built afresh without k.
 * Refusals: 1, 5, 6 (k), 7 (k is absent), 8.
 */
struct panel_strike_answer panel_strike(uint64_t *rec, size_t rec_len, uint64_t k);

/*
 * Restores the absent candidate k. The record is then the one built afresh with k.
 * Refusals: 1, 5, 6 (k), 7 (k stands).
 */
struct panel_restore_answer panel_restore(uint64_t *rec, size_t rec_len, uint64_t k);

/*
 * Strikes strikable roles in passes, the more redundant first, each where b times the quality after the strike is
 * below a times the quality before it. w1 to w4 weigh roles, direct members, direct permissions and links.
 * When it ends, no standing role is both strikable and within that tolerance.
 * Refusals: 1, 5, 9 (a weight above 1,000; b not 1 to 1,000; a not b to 2b).
 */
struct panel_eliminate_answer panel_eliminate(uint64_t *rec, size_t rec_len, uint64_t w1, uint64_t w2, uint64_t w3,
                                              uint64_t w4, uint64_t a, uint64_t b);

/*
 * Restores absent candidates, by growing number and in passes, each where that makes the quality strictly smaller,
 * until a pass restores nothing. No single absent candidate would then lower the quality.
 * Refusals: 1, 5, 9 (a weight above 1,000).
 */
struct panel_review_answer panel_review(uint64_t *rec, size_t rec_len, uint64_t w1, uint64_t w2, uint64_t w3,
                                        uint64_t w4);

/*
 * The quality w1 (roles) + w2 (direct members) + w3 (direct permissions) + w4 (links) of the record's building.
 * Refusals: 1, 5, 9 (a weight above 1,000).
 */
struct panel_quality_answer panel_quality(const uint64_t *rec, size_t rec_len, uint64_t w1, uint64_t w2, uint64_t w3,
                                          uint64_t w4);

/*
 * Whether user u may do what permission p is for: some role has u as direct member and, by zero or more links
 * downward, reaches a role with p direct. In a sound record this is exactly what the crew row of u says.
 * Refusals: 1, 5, 6 (u, p).
 */
struct panel_may_answer panel_may(const uint64_t *rec, size_t rec_len, uint64_t u, uint64_t p);

/*
 * Reads a crew text (bytes, no ending zero) into a buffer of PANEL_ROWS_WORDS words: the n rows, four words each, as
 * panel_mine takes them (with crew_len 4n), then zeros. The text is `crew,n,m` and n lines `u,h`, u rising from 0, h
 * the crew row in exactly m/4 lower-case hexadecimal digits, rounded up, each line ended by byte 10.
 * Refusals: 3 (the buffer's length), 10 (over 16,384 bytes); then from the front, the first fault: in the header 10
 * (its form), 2; in each row 10 (its form), 3 (a bit at m or above); then 10 (more bytes).
 */
struct panel_crew_read panel_read_crew(const uint8_t *text, size_t text_len, uint64_t *rows, size_t rows_len);

/*
 * Writes the crew text of the record's n, m and crew rows, in the form that panel_read_crew takes, into the front of
 * the lent bytes; no zero ends it. The answer is its length, and the bytes beyond are untouched. Whichever roles stand
 * it is the same text: where the record was mined from a text that was read, that one byte for byte.
 * Refusals: 1, 5, 11 (fewer bytes than the text has; just as many are enough, and PANEL_CREW_BYTES always are).
 */
struct panel_crew_written panel_write_crew(const uint64_t *rec, size_t rec_len, uint8_t *text, size_t text_len);

#ifdef __cplusplus
}
#endif

#endif
