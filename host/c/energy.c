/*
 * Wagontulip from C: the energies of a solution.
 *
 *     energy H EDITION TIMETABLE PROFILES CONSTRAINTS SOLUTION
 *
 * prints the label and the answer's numbers. Exit status: the answer's code, or 3 where there is none.
 */
#include "given.h"

#include <string.h>

/* A whole number with no needless zero. One past 32 bits is out of range or not known, as the greatest of 32 bits is. */
static uint32_t number(const char *name, const char *word) {
    size_t digits = strspn(word, "0123456789");
    if (digits == 0 || word[digits] != '\0' || (digits > 1 && word[0] == '0')) {
        fprintf(stderr, "%s is no whole number\n", name);
        exit(COULD_NOT_RUN);
    }
    unsigned long long value = strtoull(word, NULL, 10);
    return value > UINT32_MAX ? UINT32_MAX : (uint32_t)value;
}

int main(int count, char **words) {
    if (count != 7) {
        fprintf(stderr, "energy H EDITION TIMETABLE PROFILES CONSTRAINTS SOLUTION\n");
        return COULD_NOT_RUN;
    }
    uint64_t rooms[WAGONTULIP_NUMBERS];
    uint64_t answer[WAGONTULIP_NUMBERS];
    wagontulip_rooms(rooms);

    uint32_t h = number("H", words[1]);
    uint32_t edition = number("EDITION", words[2]);
    uint64_t most = rooms[WAGONTULIP_TEXT_ROOM];
    struct text timetable = read_text(words[3], most);
    struct text profiles = read_text(words[4], most);
    struct text constraints = read_text(words[5], most);
    struct text solution = read_text(words[6], most);
    wagontulip_energy(h, edition, timetable.bytes, timetable.length, profiles.bytes, profiles.length, constraints.bytes, constraints.length,
                      solution.bytes, solution.length, lend(rooms[WAGONTULIP_LEGS_ROOM]), rooms[WAGONTULIP_LEGS_ROOM], lend(rooms[WAGONTULIP_CONFIGURATIONS_ROOM]),
                      rooms[WAGONTULIP_CONFIGURATIONS_ROOM], lend(rooms[WAGONTULIP_PROFILES_ROOM]), rooms[WAGONTULIP_PROFILES_ROOM],
                      lend(rooms[WAGONTULIP_SAMPLES_ROOM]), rooms[WAGONTULIP_SAMPLES_ROOM], lend(rooms[WAGONTULIP_CONSTRAINTS_ROOM]),
                      rooms[WAGONTULIP_CONSTRAINTS_ROOM], lend(rooms[WAGONTULIP_TRACKS_ROOM]), rooms[WAGONTULIP_TRACKS_ROOM],
                      lend(rooms[WAGONTULIP_CHOICES_ROOM]), rooms[WAGONTULIP_CHOICES_ROOM], lend(rooms[WAGONTULIP_CURVES_ROOM]),
                      rooms[WAGONTULIP_CURVES_ROOM], answer);

    print_answer(answer);
    return (int)answer[0];
}
