/* Turns at a folder: the calls that a command asks for, by what is told of those before, also of those that failed. There is no folder: what is
 * told is made up. */
#include "told.h"

#include <errno.h>

static const char PART[] = "the bytes of a part", OTHER[] = "others", TEMPORARY[] = ".part-0123456789abcdef";

/* The calls as they are written: M(ake), W(rite), S(ync), L(ink), R(emove), D(irectory synced), E(xclusive lock), H(shared lock), N(ames),
 * F(ile read), U(nlocked). */
static const char CALLS[] = ".MWSLRDEHNFU";

/* What is told, as it is written: d(one), f(ailed), t(aken), w(ritten whole), s(even bytes written), l(isted), m(ore listed), n(o file), p(art
 * found), o(ther bytes found). */
static uint8_t answer_of(char letter) {
    switch (letter) {
    case 'd': return LANES_DONE;
    case 't': return LANES_TAKEN;
    case 'w':
    case 's': return LANES_WROTE;
    case 'l':
    case 'm': return LANES_LISTED;
    case 'n': return LANES_NO_FILE;
    case 'p':
    case 'o': return LANES_FOUND;
    default: return LANES_FAILED;
    }
}

/* The number that is told with it. */
static uint64_t number_of(char letter, lanes_call call) {
    switch (letter) {
    case 'w': return strlen(PART) - call.number;
    case 's': return 7;
    case 'f': return call.kind == LANES_CALL_LOCK ? EAGAIN : ENOSPC;
    default: return 0;
    }
}

static lanes_turn begun(uint8_t command) {
    lanes_turn turn = LANES_NO_TURN;
    lanes_place place;
    expect(lanes_folder_begin(command, text_of(TEMPORARY), strlen(TEMPORARY), text_of(PART), strlen(PART), &turn, &place) == 0, "a turn is begun");
    return turn;
}

static void name(lanes_turn *turn, const char *of) {
    lanes_place place;
    expect(lanes_folder_name(text_of(of), strlen(of), turn, &place) == 0, "a name is added");
}

static void relied(lanes_turn *turn, const char *of) {
    lanes_place place;
    expect(lanes_folder_relied(text_of(of), strlen(of), turn, &place) == 0, "a name of a part on which another relies is added");
}

static const char *const NAMES[] = {"1.lanes", "2.lanes", "3.lanes"};

/* A command, told these answers, asks for these calls, and is refused with this number and place, or comes to this. A listing gives the first of
 * two names, the second one if that is not gone, and a third one if it gives more. */
static void comes(uint8_t command, const char *answers, const char *calls, uint8_t number, uint64_t to, bool is_gone) {
    lanes_turn turn = begun(command);
    lanes_call call = {0, 0};
    lanes_place place = {0, 0};
    uint8_t found = 0, answer = LANES_NOTHING;
    uint64_t told_number = 0;
    char made[64] = "", what[200];
    size_t at = 0, length;
    const char *bytes = "";
    bool is_judged = command == LANES_FOLDER_PUT_JUDGED || command == LANES_FOLDER_KEEP_AND_PUT_JUDGED;
    bool is_relying = command == LANES_FOLDER_KEEP_AND_PUT || command == LANES_FOLDER_KEEP_AND_PUT_JUDGED;
    bool is_about_parts = is_judged || command == LANES_FOLDER_REPLACE || command == LANES_FOLDER_REMOVE || command == LANES_FOLDER_KEEP_ALL;
    for (int i = 0; is_about_parts && i < 2; i++) name(&turn, NAMES[i]);
    for (int i = 0; is_relying && i < 2; i++) relied(&turn, NAMES[i]);
    for (; at < sizeof made - 1; at++) {
        uint8_t room[ROOM];
        found = lanes_folder_next(&turn, answer, told_number, text_of(bytes), strlen(bytes), &call, room, sizeof room, &length, &place);
        if (found || call.kind == LANES_ENDED || !answers[at]) break;
        made[at] = CALLS[call.kind];
        int listed = answers[at] == 'm' ? 3 : answers[at] != 'l' ? 0 : is_gone ? 1 : 2;
        for (int i = 0; i < listed; i++) name(&turn, NAMES[i]);
        answer = answer_of(answers[at]);
        told_number = number_of(answers[at], call);
        bytes = answers[at] == 'p' ? PART : answers[at] == 'o' ? OTHER : "";
    }
    snprintf(what, sizeof what, "command %d told %s: %s, %d, %llu", command, answers, made, found, (unsigned long long)(found ? place.first : call.number));
    expect(!strcmp(made, calls) && at == strlen(answers) && found == number && (found ? place.first : call.number) == to, what);
    lanes_folder_end(&turn);
}

static void try_put(void) {
    comes(LANES_FOLDER_PUT, "dwdddd", "MWSLRD", 0, LANES_ON_DISK, false);
    comes(LANES_FOLDER_PUT, "dsswdddd", "MWWWSLRD", 0, LANES_ON_DISK, false);
    comes(LANES_FOLDER_PUT, "fd", "MR", LANES_SYSTEM, ENOSPC, false);
    comes(LANES_FOLDER_PUT, "dfd", "MWR", LANES_SYSTEM, ENOSPC, false);
    comes(LANES_FOLDER_PUT, "dwfd", "MWSR", LANES_SYSTEM, ENOSPC, false);
    comes(LANES_FOLDER_PUT, "dwdfd", "MWSLR", LANES_SYSTEM, ENOSPC, false);
    comes(LANES_FOLDER_PUT, "dwddfd", "MWSLRD", 0, LANES_ON_DISK, false);
    comes(LANES_FOLDER_PUT, "dwdddf", "MWSLRD", 0, LANES_UNSYNCED, false);
    comes(LANES_FOLDER_PUT, "dwdtdpdd", "MWSLRFSD", 0, LANES_ON_DISK, false);
    comes(LANES_FOLDER_PUT, "dwdtdpf", "MWSLRFS", 0, LANES_UNSYNCED, false);
    comes(LANES_FOLDER_PUT, "dwdtdo", "MWSLRF", LANES_DAMAGED, 0, false);
    comes(LANES_FOLDER_PUT, "dwdtdn", "MWSLRF", 0, LANES_GONE, false);
    comes(LANES_FOLDER_PUT, "dwdtdf", "MWSLRF", LANES_SYSTEM, ENOSPC, false);
    comes(LANES_FOLDER_KEEP, "pdd", "FSD", 0, LANES_ON_DISK, false);
}

/* What is not on the disk, or is gone, removes nothing. */
static void try_replace(void) {
    comes(LANES_FOLDER_REPLACE, "dwddlddpdddddd", "MWSENLRFSDRRDU", 0, LANES_ON_DISK, false);
    comes(LANES_FOLDER_REPLACE, "dwddltdpdddddd", "MWSENLRFSDRRDU", 0, LANES_ON_DISK, false);
    comes(LANES_FOLDER_REPLACE, "dwdfd", "MWSER", LANES_BUSY, 0, false);
    comes(LANES_FOLDER_REPLACE, "dwddldd", "MWSENRU", 0, LANES_GONE, true);
    comes(LANES_FOLDER_REPLACE, "dwddfdd", "MWSENRU", LANES_SYSTEM, ENOSPC, false);
    comes(LANES_FOLDER_REPLACE, "dwddlfdd", "MWSENLRU", LANES_SYSTEM, ENOSPC, false);
    comes(LANES_FOLDER_REPLACE, "dwddlddnd", "MWSENLRFU", 0, LANES_GONE, false);
    comes(LANES_FOLDER_REPLACE, "dwddlddod", "MWSENLRFU", LANES_DAMAGED, 0, false);
    comes(LANES_FOLDER_REPLACE, "dwddlddpfd", "MWSENLRFSU", 0, LANES_UNSYNCED, false);
    comes(LANES_FOLDER_REPLACE, "dwddlddpdfd", "MWSENLRFSDU", 0, LANES_UNSYNCED, false);
    comes(LANES_FOLDER_REPLACE, "dwddlddpddfd", "MWSENLRFSDRU", LANES_SYSTEM, ENOSPC, false);
    comes(LANES_FOLDER_REPLACE, "dwddlddpddddfd", "MWSENLRFSDRRDU", LANES_SYSTEM, ENOSPC, false);
    comes(LANES_FOLDER_REMOVE, "dpdddddd", "EFSDRRDU", 0, LANES_ON_DISK, false);
    comes(LANES_FOLDER_REMOVE, "f", "E", LANES_BUSY, 0, false);
}

/* A part that is to go with all that are there is put only if no other one came. */
static void try_put_judged(void) {
    comes(LANES_FOLDER_PUT_JUDGED, "dwddldddd", "MWSENLRDU", 0, LANES_ON_DISK, false);
    comes(LANES_FOLDER_PUT_JUDGED, "dwddldddd", "MWSENLRDU", 0, LANES_ON_DISK, true);
    comes(LANES_FOLDER_PUT_JUDGED, "dwddmdd", "MWSENRU", 0, LANES_UNSEEN, false);
    comes(LANES_FOLDER_PUT_JUDGED, "dwddlddfd", "MWSENLRDU", 0, LANES_UNSYNCED, false);
    comes(LANES_FOLDER_PUT_JUDGED, "dwddltdpddd", "MWSENLRFSDU", 0, LANES_ON_DISK, false);
    comes(LANES_FOLDER_PUT_JUDGED, "dwddltdnd", "MWSENLRFU", 0, LANES_GONE, false);
    comes(LANES_FOLDER_PUT_JUDGED, "dwddltdod", "MWSENLRFU", LANES_DAMAGED, 0, false);
    comes(LANES_FOLDER_PUT_JUDGED, "dwdfd", "MWSER", LANES_BUSY, 0, false);
    comes(LANES_FOLDER_PUT_JUDGED, "dwddfdd", "MWSENRU", LANES_SYSTEM, ENOSPC, false);
    comes(LANES_FOLDER_PUT_JUDGED, "dwfd", "MWSR", LANES_SYSTEM, ENOSPC, false);
}

/* A part that relies on others is put only once they are kept or gone. */
static void try_keep_and_put(void) {
    comes(LANES_FOLDER_KEEP_AND_PUT, "pdpdddwdddd", "FSFSDMWSLRD", 0, LANES_ON_DISK, false);
    comes(LANES_FOLDER_KEEP_AND_PUT, "npdddwdddf", "FFSDMWSLRD", 0, LANES_UNSYNCED, false);
    comes(LANES_FOLDER_KEEP_AND_PUT, "pf", "FS", LANES_SYSTEM, ENOSPC, false);
    comes(LANES_FOLDER_KEEP_AND_PUT, "f", "F", LANES_SYSTEM, ENOSPC, false);
    comes(LANES_FOLDER_KEEP_AND_PUT, "pdpdf", "FSFSD", LANES_SYSTEM, ENOSPC, false);
    comes(LANES_FOLDER_KEEP_AND_PUT_JUDGED, "pdpdddwddldddd", "FSFSDMWSENLRDU", 0, LANES_ON_DISK, false);
    comes(LANES_FOLDER_KEEP_AND_PUT_JUDGED, "pdnddwddmdd", "FSFDMWSENRU", 0, LANES_UNSEEN, false);
    comes(LANES_FOLDER_KEEP_AND_PUT_JUDGED, "pdpf", "FSFS", LANES_SYSTEM, ENOSPC, false);
    comes(LANES_FOLDER_KEEP_AND_PUT_JUDGED, "nnddwdfd", "FFDMWSER", LANES_BUSY, 0, false);
}

static void try_names(void) {
    comes(LANES_FOLDER_LIST, "dld", "HNU", 0, LANES_FOLDER_DONE, false);
    comes(LANES_FOLDER_LIST, "f", "H", LANES_SYSTEM, ENOSPC, false);
    comes(LANES_FOLDER_LIST, "dfd", "HNU", LANES_SYSTEM, ENOSPC, false);
    comes(99, "dld", "HNU", 0, LANES_FOLDER_DONE, false);
    comes(LANES_FOLDER_KEEP_ALL, "pdnd", "FSFD", 0, LANES_FOLDER_DONE, false);
    comes(LANES_FOLDER_KEEP_ALL, "pf", "FS", LANES_SYSTEM, ENOSPC, false);
}

/* Answers that fit no call count as failures; names are given if there is room; a handle without a turn is refused. */
static void try_handle(void) {
    lanes_turn turn = LANES_NO_TURN;
    lanes_call call = {7, 7};
    lanes_place place;
    uint8_t room[ROOM], part[39];
    size_t length, part_length;
    expect(lanes_folder_next(&turn, LANES_NOTHING, 0, text_of(""), 0, &call, room, sizeof room, &length, &place) == LANES_NOT_OPEN && call.kind == 7, "no turn");
    expect(lanes_folder_name(text_of("a"), 1, &turn, &place) == LANES_NOT_OPEN, "no turn to name for");
    expect(lanes_folder_relied(text_of("a"), 1, &turn, &place) == LANES_NOT_OPEN, "nor to rely for");
    expect(lanes_folder_begin(LANES_FOLDER_PUT, text_of("\xff"), 1, text_of(PART), strlen(PART), &turn, &place) == LANES_SYNTAX && !turn.begun, "a name that is no text");
    turn = begun(LANES_FOLDER_PUT);
    expect(lanes_folder_name(text_of("a\xff"), 2, &turn, &place) == LANES_SYNTAX && place.first == 1, "another one");
    expect(lanes_folder_relied(text_of("a\xff"), 2, &turn, &place) == LANES_SYNTAX && place.first == 1, "one to rely on");
    expect(lanes_folder_next(&turn, LANES_DONE, 0, text_of(""), 0, &call, room, 3, &length, &place) == 0 && call.kind == LANES_CALL_MAKE && length == strlen(TEMPORARY), "too little room");
    expect(lanes_folder_next(&turn, LANES_NOTHING, 0, text_of(""), 0, &call, room, sizeof room, &length, &place) == 0 && call.kind == LANES_CALL_MAKE && !memcmp(room, TEMPORARY, length), "and enough");
    expect(lanes_folder_next(&turn, LANES_DONE, 0, text_of(""), 0, &call, room, sizeof room, &length, &place) == 0 && call.kind == LANES_CALL_WRITE && call.number == 0, "a write");
    expect(lanes_folder_next(&turn, LANES_WROTE, 1000, text_of(""), 0, &call, room, sizeof room, &length, &place) == 0 && call.kind == LANES_CALL_REMOVE, "more bytes than there are");
    lanes_folder_end(&turn);
    turn = begun(LANES_FOLDER_KEEP);
    expect(lanes_folder_next(&turn, LANES_NOTHING, 0, text_of(""), 0, &call, room, sizeof room, &length, &place) == 0 && call.kind == LANES_CALL_READ, "a read");
    expect(lanes_part_name(text_of(PART), strlen(PART), part, sizeof part, &part_length, &place) == 0 && part_length == 38, "the name of a part");
    expect(length == part_length && !memcmp(room, part, length), "is that of the file that is read");
    lanes_folder_end(&turn);
    lanes_folder_end(&turn);
}

int main(void) {
    try_put();
    try_replace();
    try_put_judged();
    try_keep_and_put();
    try_names();
    try_handle();
    return told_all("turns");
}
