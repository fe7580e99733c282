/*
 * Wagontulip from C: null with length 0 is a text, or a table, of nothing. Exit status: 0 where each answer is the one to expect.
 */
#include "wagontulip.h"

#include <stdio.h>
#include <string.h>

static const char DRAFT[] =
    "leg_id,train_id,track_id,start_station_id,end_station_id,nominal_departure_configuration,departure_configurations\n"
    "1,1,1,1,2,10_4_7,10_4_7 15_4_7\n";

static const char DUTIES[] =
    "DUTY_ID,SEQ,START_TIME_SECONDS,START_TIME_HHMMSS,END_TIME_SECONDS,END_TIME_HHMMSS,START_NODE,END_NODE,EVENT_TYPE,TRAIN_COURSE_ID\n"
    "D,1,60,00:01:00,120,00:02:00,A,A,SPARE,\n";

enum { HEADER_DIFFERS = 3, ROOM_TOO_SHORT = 16, TIMETABLE = 1, FIRST_ROW = 114, DUTY_FILE = 6, FIRST_EVENT = 129 };

static int refused(const char *timetable, size_t length, uint64_t number, uint64_t place) {
    uint64_t answer[WAGONTULIP_NUMBERS];
    wagontulip_check(100, WAGONTULIP_EXAMPLE_EDITION, (const uint8_t *)timetable, length, NULL, 0, NULL, 0, NULL, 0, NULL, 0, NULL, 0, NULL, 0, NULL, 0,
                     NULL, 0, NULL, 0, NULL, 0, answer);
    return answer[0] == WAGONTULIP_REFUSED && answer[WAGONTULIP_NUMBER] == number && answer[WAGONTULIP_REFUSED_FILE] == TIMETABLE &&
           answer[WAGONTULIP_PLACE] == place && answer[WAGONTULIP_TESTED] == 0;
}

static int duties_answer(const char *duties, size_t length, uint64_t code, uint64_t first, uint64_t second, uint64_t third) {
    uint64_t answer[WAGONTULIP_NUMBERS];
    wagontulip_duties((const uint8_t *)duties, length, NULL, 0, NULL, 0, answer);
    return answer[0] == code && answer[1] == first && answer[2] == second && answer[3] == third;
}

/* A header alone has no node, and wants no room. */
static int no_duties(void) {
    return duties_answer(NULL, 0, WAGONTULIP_REFUSED, HEADER_DIFFERS, DUTY_FILE, 0) &&
           duties_answer(DUTIES, FIRST_EVENT, WAGONTULIP_ACCEPTED, 0, 0, 0) &&
           duties_answer(DUTIES, strlen(DUTIES), WAGONTULIP_REFUSED, ROOM_TOO_SHORT, DUTY_FILE, FIRST_EVENT);
}

/* No row starts in no text. */
static int no_row(void) {
    uint64_t answer[WAGONTULIP_NUMBERS];
    wagontulip_row(NULL, 0, NULL, 0, TIMETABLE, 0, answer);
    return answer[0] == WAGONTULIP_ROW && answer[WAGONTULIP_START] == 0 && answer[WAGONTULIP_ROW_LENGTH] == 0;
}

int main(void) {
    int good = refused(NULL, 0, HEADER_DIFFERS, 0) && refused(DRAFT, strlen(DRAFT), ROOM_TOO_SHORT, FIRST_ROW) && no_row() && no_duties();
    if (!good) {
        fprintf(stderr, "nothing: another answer\n");
    }
    return good ? 0 : 1;
}
