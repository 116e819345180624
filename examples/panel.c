/*
 * The worked list of document 01 through the C calls: three users with rows 3, 6, 7 on three permissions. What it
 * prints is in panel.out, from the model in tests/.
 */
#include <inttypes.h>
#include <stdio.h>
#include <stdlib.h>

#include <rolepanel.h>

static uint64_t record[PANEL_RECORD_WORDS];
static uint64_t rows[PANEL_ROWS_WORDS];
static uint8_t written[PANEL_CREW_BYTES];

static void expect(const char *call, uint64_t code) {
    if (code != PANEL_ACCEPTED) {
        fprintf(stderr, "%s: refused, %" PRIu64 "\n", call, code);
        exit(EXIT_FAILURE);
    }
}

/* The sets of this list all fit their first word. */
static void print_record(const char *when) {
    struct panel_quality_answer q = panel_quality(record, PANEL_RECORD_WORDS, 1, 1, 1, 1);
    uint64_t k;
    expect("panel_quality", q.code);
    printf("%s: quality %" PRIu64 "\n", when, q.quality);
    for (k = 0; k < record[PANEL_AT_C]; k++) {
        if (panel_has(&record[PANEL_AT_STANDING], k)) {
            printf("  role %" PRIu64 ": permissions %" PRIx64 ", direct permissions %" PRIx64 ", direct members %" PRIx64
                   ", immediate juniors %" PRIx64 "\n",
                   k, record[PANEL_AT_SETS + 4 * k], record[PANEL_AT_PERMISSIONS + 4 * k],
                   record[PANEL_AT_MEMBERS + 2 * k], record[PANEL_AT_JUNIORS + 2 * k]);
        }
    }
}

static void print_rights(void) {
    uint64_t u, p;
    for (u = 0; u < record[PANEL_AT_N]; u++) {
        printf("user %" PRIu64 " may:", u);
        for (p = 0; p < record[PANEL_AT_M]; p++) {
            struct panel_may_answer may = panel_may(record, PANEL_RECORD_WORDS, u, p);
            expect("panel_may", may.code);
            if (may.allowed) {
                printf(" %" PRIu64, p);
            }
        }
        printf("\n");
    }
}

int main(void) {
    static const char text[] = "crew,3,3\n0,3\n1,6\n2,7\n";
    struct panel_crew_read crew;
    struct panel_mine_answer mined;
    struct panel_eliminate_answer eliminated;
    struct panel_review_answer reviewed;
    struct panel_crew_written back;

    crew = panel_read_crew((const uint8_t *)text, sizeof text - 1, rows, PANEL_ROWS_WORDS);
    expect("panel_read_crew", crew.code);
    mined = panel_mine(crew.n, crew.m, rows, (size_t)(4 * crew.n), record, PANEL_RECORD_WORDS);
    expect("panel_mine", mined.code);
    printf("mined: %" PRIu64 " candidates of %" PRIu64 " users and %" PRIu64 " permissions\n", mined.candidates, crew.n,
           crew.m);
    print_record("all candidates stand");
    print_rights();

    printf("strike 1: %" PRIu64 "\n", panel_strike(record, PANEL_RECORD_WORDS, 1).code);
    printf("restore 0: %" PRIu64 "\n", panel_restore(record, PANEL_RECORD_WORDS, 0).code);
    printf("strike 4: %" PRIu64 "\n", panel_strike(record, PANEL_RECORD_WORDS, 4).code);
    expect("panel_strike", panel_strike(record, PANEL_RECORD_WORDS, 0).code);
    print_record("0 struck");
    expect("panel_restore", panel_restore(record, PANEL_RECORD_WORDS, 0).code);
    print_record("0 restored");

    eliminated = panel_eliminate(record, PANEL_RECORD_WORDS, 1, 1, 1, 1, 1, 1);
    expect("panel_eliminate", eliminated.code);
    printf("eliminate: struck %" PRIu64 ", taken up %" PRIu64 "\n", eliminated.removed, eliminated.examined);
    reviewed = panel_review(record, PANEL_RECORD_WORDS, 1, 1, 1, 1);
    expect("panel_review", reviewed.code);
    printf("review: restored %" PRIu64 ", taken up %" PRIu64 "\n", reviewed.restored, reviewed.examined);
    print_record("eliminated and reviewed");
    print_rights();

    back = panel_write_crew(record, PANEL_RECORD_WORDS, written, PANEL_CREW_BYTES);
    expect("panel_write_crew", back.code);
    printf("written back: %" PRIu64 " bytes\n", back.length);
    fwrite(written, 1, (size_t)back.length, stdout);

    record[3] = 1;
    printf("word 3 damaged: %" PRIu64 "\n", panel_quality(record, PANEL_RECORD_WORDS, 1, 1, 1, 1).code);
    return EXIT_SUCCESS;
}
