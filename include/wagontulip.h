/*
 * Wagontulip for C: a checker for metro timetables and rolling stock duties whose answers are proved.
 *
 * Link the library's archive (x86-64 Linux), target/staticlib/libexports.a, which `host/build` writes: `rt lib` in crates/exports_c makes it. Of other
 * libraries the archive needs C's memcpy and memset alone.
 *
 *     LABEL, to be printed above every result: no violation shown is not no violation.
 *
 * Every function judges its own input. Any bytes in any text end in one of three answers: accepted, the first violation, or a numbered refusal; of the
 * duties the violation is the first row that breaks a rule. The promise of each is stated and proved beside its code; the numbers are those of document 01.
 *
 * Texts and tables. A text or a table is two arguments, a pointer and how many elements it has: bytes of a text, numbers of a table. The caller owns them all.
 *   - A text is only read. Texts may overlap each other.
 *   - A table, a text buffer and an answer are lent: written during the call, and not kept after it. No two of them may overlap, and none a text.
 *   - A pointer may be null only with length 0. A length of 0 is no error by itself: too little room is an answer (refusal 16).
 *   - A table of 32-bit numbers is aligned as uint32_t is, an answer as uint64_t.
 * What a pointer is to cannot be tested here: these lines are all that a caller must see to.
 *
 * What a call leaves in the lent tables:
 *   - accepted: what was read; past the last entry, or past a written text, a table keeps its contents.
 *   - violated: the same, but a text buffer is all zero bytes, and a curve table is all -2,147,483,648.
 *   - refused:  every unsigned table is all 4,294,967,295, every signed one all -2,147,483,648, a text buffer all zero bytes.
 *   - broken, of the duties: as refused.
 *
 * The functions keep no state, allocate nothing, do no input or output, and never end the process: they are reentrant, and may run in as many threads as
 * there are sets of tables. They need little stack, however long the texts are, since nothing recurses: wagontulip_energy ends with less than 11 KiB on the
 * largest underground instance (24,543 legs), wagontulip_duties takes less than 65 KiB on any text, 64 of them for the places of the duties that it has seen,
 * and the others take less than 3 KiB. `host/speed/whole/run stack` measures it.
 */
#ifndef WAGONTULIP_H
#define WAGONTULIP_H

#include <stddef.h>
#include <stdint.h>

#ifdef __cplusplus
extern "C" {
#endif

/* An answer is a code and its values, then how much was tested; the unused ones are 0. */
#define WAGONTULIP_NUMBERS 24

enum {
    WAGONTULIP_ACCEPTED = 0, /* then what the function says */
    WAGONTULIP_VIOLATED = 1, /* then kind, position, inequality, shortfall, file */
    WAGONTULIP_REFUSED = 2,  /* then number, file, place */
    WAGONTULIP_ROW = 3,      /* then start, length */
    WAGONTULIP_BROKEN = 4    /* of wagontulip_duties alone: then row, rule, place */
};

/* The places of a violation's values. */
enum {
    WAGONTULIP_KIND = 1,       /* 0 choice not offered, 1 headway, 2 single-track headway, 3 dwell, 4 turnaround, 5 connection */
    WAGONTULIP_POSITION = 2,   /* in its list, or the row for kind 0; from 0 */
    WAGONTULIP_INEQUALITY = 3, /* 1 or 2; 0 for kind 0 */
    WAGONTULIP_SHORTFALL = 4,  /* left side minus right, in seconds, at least 1; 0 for kind 0 */
    WAGONTULIP_VIOLATED_FILE = 5 /* 4 solution, 5 second solution */
};

/*
 * How much was tested for a verdict: one for each row's choice and one for each inequality, in document 01's order, up to and with the first that fails. The
 * total, at most the legs and twice the constraints, and a count for each kind, which add up to it. A verdict is an accepted or violated answer of
 * wagontulip_check and wagontulip_energy, and a violated one of a merge, which counts the tests of the solution that fails. Every other answer has 0s here.
 */
enum {
    WAGONTULIP_TESTED = 16,
    WAGONTULIP_TESTED_CHOICES = 17, /* kind 0; this and the next five in the order of the kinds */
    WAGONTULIP_TESTED_HEADWAYS = 18,
    WAGONTULIP_TESTED_SINGLE_TRACK = 19,
    WAGONTULIP_TESTED_DWELLS = 20,
    WAGONTULIP_TESTED_TURNAROUNDS = 21,
    WAGONTULIP_TESTED_CONNECTIONS = 22
};

/* The places of a refusal's values. */
enum {
    WAGONTULIP_NUMBER = 1,       /* 1 to 17, by document 01's table, and 21: an edition that is not known (file 0, place 0), tested after 1 */
    WAGONTULIP_REFUSED_FILE = 2, /* 0 none, 1 timetable, 2 profiles, 3 constraints, 4 solution, 5 second solution, 6 duties */
    WAGONTULIP_PLACE = 3         /* a byte of that file, from 0, or the file's length, which is no byte of it: then its end comes too soon */
};

/* The places of an accepted solution's energies. */
enum {
    WAGONTULIP_BEFORE_KJ = 1,
    WAGONTULIP_DRAWN_KJ = 2,
    WAGONTULIP_LOST_KJ = 3,
    WAGONTULIP_FLUCTUATION_KW = 4, /* as int64_t, two's complement */
    WAGONTULIP_PEAK_BEFORE_KJ = 5,
    WAGONTULIP_PEAK_DRAWN_KJ = 6,
    WAGONTULIP_BEFORE_MWH = 7, /* this and the next three: the bits of a double */
    WAGONTULIP_DRAWN_MWH = 8,
    WAGONTULIP_LOST_MWH = 9,
    WAGONTULIP_PEAK_DRAWN_MW = 10,
    WAGONTULIP_PEAK_BEFORE_QUARTER = 11, /* this and the next: the first quarter hour, from 0, that has the peak; H may cut the last */
    WAGONTULIP_PEAK_DRAWN_QUARTER = 12
};

/* The place of an accepted merge's value: how many bytes of the text buffer are the merged text. */
enum { WAGONTULIP_LENGTH = 1 };

/* The places of a row's values. Both are 0 where no row starts there; a row's start never is. */
enum { WAGONTULIP_START = 1, WAGONTULIP_ROW_LENGTH = 2 };

/* The place of accepted duties' value: how many nodes the two tables have. */
enum { WAGONTULIP_NODES = 1 };

/* The places of a broken rule's values. */
enum {
    WAGONTULIP_BROKEN_ROW = 1,  /* the first row that breaks one, from 0, without the header */
    WAGONTULIP_RULE = 2,        /* the lowest that it breaks, 1 to 6 */
    WAGONTULIP_BROKEN_PLACE = 3 /* the row's first byte */
};

/* The rules of the duties (document 02, E13). */
enum {
    WAGONTULIP_RULE_LATER = 1,    /* every event ends after it starts */
    WAGONTULIP_RULE_STAYS = 2,    /* only a TRAIN event may end at a node other than its start */
    WAGONTULIP_RULE_TOGETHER = 3, /* the rows of one duty stand together */
    WAGONTULIP_RULE_SEQUENCE = 4, /* SEQ runs from 1 in each duty */
    WAGONTULIP_RULE_MEETS = 5,    /* each event starts at the time and node at which the one before it in its duty ended */
    WAGONTULIP_RULE_TEXTS = 6     /* the HHMMSS columns match the seconds */
};

/* The places in `rooms`. */
enum {
    WAGONTULIP_LEGS_ROOM = 0,
    WAGONTULIP_CONFIGURATIONS_ROOM = 1,
    WAGONTULIP_PROFILES_ROOM = 2,
    WAGONTULIP_SAMPLES_ROOM = 3,
    WAGONTULIP_CONSTRAINTS_ROOM = 4,
    WAGONTULIP_TRACKS_ROOM = 5,
    WAGONTULIP_CHOICES_ROOM = 6,
    WAGONTULIP_SECOND_CHOICES_ROOM = 7,
    WAGONTULIP_CURVES_ROOM = 8,
    WAGONTULIP_TEXT_ROOM = 9, /* in bytes; the others in numbers */
    WAGONTULIP_NODES_ROOM = 10,
    WAGONTULIP_BALANCE_ROOM = 11
};

/*
 * The room of each table at document 01's sizes: the most entries times the numbers of one; for the curves the most subnets times the greatest H; for the
 * text the greatest size of a text. Less may be lent, and more; what does not fit is refusal 16.
 */
void wagontulip_rooms(uint64_t rooms[WAGONTULIP_NUMBERS]);

/*
 * The tables. Leg: five ids, first configuration, count, place of the nominal in its list (8 numbers). Configuration and choice: departure, travel time,
 * profile id (3). Profile: id, first sample, count (3). Sample: kW (1). Constraint: kind, first row, second row, low, high, type (6). Track: id, place of its
 * subnet (2). Curve: H numbers in kW for each subnet, one subnet after the other. Node: the first byte of its name in the text, where it is first seen, and how
 * long the name is (2). Balance: duties ending at the node less duties starting there (1).
 */

/*
 * What is stated beside the texts, by every function that reads constraints: `h`, the horizon in seconds, and `edition`, that of constraints.json. Any number
 * may be stated: the function judges it, `h` first (refusal 1), then `edition` (21), before every text. A key of the other edition is refusal 10.
 */
enum {
    WAGONTULIP_TABLE_EDITION = 1,  /* `min_dwell_time` for turnarounds, by Table 3 of document 000 */
    WAGONTULIP_EXAMPLE_EDITION = 2 /* `min_turnaround_time`, by that document's example and by 001 */
};

/* Is the solution accepted? */
void wagontulip_check(uint32_t h, uint32_t edition, const uint8_t *timetable, size_t timetable_length, const uint8_t *profiles, size_t profiles_length,
                      const uint8_t *constraints, size_t constraints_length, const uint8_t *solution, size_t solution_length, uint32_t *legs,
                      size_t legs_room, uint32_t *configurations, size_t configurations_room, uint32_t *profile_table, size_t profile_table_room,
                      int32_t *samples, size_t samples_room, uint32_t *constraint_table, size_t constraint_table_room, uint32_t *tracks,
                      size_t tracks_room, uint32_t *choices, size_t choices_room, uint64_t answer[WAGONTULIP_NUMBERS]);

/* The same, and where the solution is accepted its energies, with the power curves in `curves`. */
void wagontulip_energy(uint32_t h, uint32_t edition, const uint8_t *timetable, size_t timetable_length, const uint8_t *profiles, size_t profiles_length,
                       const uint8_t *constraints, size_t constraints_length, const uint8_t *solution, size_t solution_length, uint32_t *legs,
                       size_t legs_room, uint32_t *configurations, size_t configurations_room, uint32_t *profile_table, size_t profile_table_room,
                       int32_t *samples, size_t samples_room, uint32_t *constraint_table, size_t constraint_table_room, uint32_t *tracks,
                       size_t tracks_room, uint32_t *choices, size_t choices_room, int32_t *curves, size_t curves_room,
                       uint64_t answer[WAGONTULIP_NUMBERS]);

/* From two accepted solutions, the timetable of the earlier choice at each leg (the first file's at equal departures), written to `text`. */
void wagontulip_merge_earlier(uint32_t h, uint32_t edition, const uint8_t *timetable, size_t timetable_length, const uint8_t *profiles,
                              size_t profiles_length, const uint8_t *constraints, size_t constraints_length, const uint8_t *first,
                              size_t first_length, const uint8_t *second, size_t second_length, uint32_t *legs, size_t legs_room, uint32_t *configurations,
                              size_t configurations_room, uint32_t *profile_table, size_t profile_table_room, int32_t *samples, size_t samples_room,
                              uint32_t *constraint_table, size_t constraint_table_room, uint32_t *tracks, size_t tracks_room, uint32_t *choices,
                              size_t choices_room, uint32_t *second_choices, size_t second_choices_room, uint8_t *text, size_t text_room,
                              uint64_t answer[WAGONTULIP_NUMBERS]);

/* The same of the later choice at each leg (the second file's at equal departures). */
void wagontulip_merge_later(uint32_t h, uint32_t edition, const uint8_t *timetable, size_t timetable_length, const uint8_t *profiles,
                            size_t profiles_length, const uint8_t *constraints, size_t constraints_length, const uint8_t *first,
                            size_t first_length, const uint8_t *second, size_t second_length, uint32_t *legs, size_t legs_room, uint32_t *configurations,
                            size_t configurations_room, uint32_t *profile_table, size_t profile_table_room, int32_t *samples, size_t samples_room,
                            uint32_t *constraint_table, size_t constraint_table_room, uint32_t *tracks, size_t tracks_room, uint32_t *choices,
                            size_t choices_room, uint32_t *second_choices, size_t second_choices_room, uint8_t *text, size_t text_room,
                            uint64_t answer[WAGONTULIP_NUMBERS]);

/*
 * Do rolling stock duties keep the six rules? Nothing is stated. The whole text is read before a rule is judged, so a refusal (2, 3, 4, 5, 6, 10 or 16, of file
 * 6) comes before a broken rule. Accepted, `nodes` and `balance` have an entry for each node, in order of first sight, a row's start before its end; over all
 * nodes the balances add up to zero. Room is the lesser of half of `nodes_room` and of `balance_room`.
 */
void wagontulip_duties(const uint8_t *text, size_t text_length, uint32_t *nodes, size_t nodes_room, int32_t *balance, size_t balance_room,
                       uint64_t answer[WAGONTULIP_NUMBERS]);

/*
 * For display: the row at a refusal's file and place, without its LF or CR LF, in the draft for file 1 and in the solution for file 4. The code is WAGONTULIP_ROW.
 * Any CSV text may stand for the draft, a duty file too.
 */
void wagontulip_row(const uint8_t *draft, size_t draft_length, const uint8_t *solution, size_t solution_length, uint8_t file, uint32_t place,
                    uint64_t answer[WAGONTULIP_NUMBERS]);

#ifdef __cplusplus
}
#endif

#endif
