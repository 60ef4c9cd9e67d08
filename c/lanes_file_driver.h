/* Changes a file as the program `lanes` does: under the file's lock, and whole. So nothing is lost that other processes add meanwhile.
 *
 *     lanes_held held = LANES_NOT_HELD;
 *     lanes_table table = LANES_CLOSED;
 *     number = lanes_file_hold("hits.lanes", &held, &place);
 *     if (!number) number = lanes_open(held.bytes, held.length, &table, &place);
 *     if (!number) number = lanes_table_import(&table, ...);         and any other call that changes a table
 *     if (!number) number = lanes_file_put(&held, &table, &came, &place);
 *     lanes_file_let_go(&held);
 *     lanes_close(&table);
 *
 * The lock is the new file. It is next to the old one as `.NAME.lanes-lock`, and takes its place once it is written and synced. While a file
 * is held, others read it as it was, and wait up to ten seconds with their changes; so hold it for a short time. A process that is killed
 * leaves the old file or the new one, and at most the lock's file, which the next one takes. docs/COMMANDS.md, "A file is replaced whole", has
 * the rules.
 *
 * Who replaces a file without its lock loses what others have added since it was read. */
#ifndef LANES_FILE_DRIVER_H
#define LANES_FILE_DRIVER_H

#include "lanes.h"

#ifdef __cplusplus
extern "C" {
#endif

/* A file whose lock this process has. Set it to LANES_NOT_HELD before its first use, don't copy it, and give it to one call at a time. */
typedef struct lanes_held {
    /* What the file had when it was held. The pointer isn't null while the file is held, also if the length is 0. */
    uint8_t *bytes;
    size_t length;
    /* Whether there is a file. If there is no file, the length is 0, and what is put makes it. */
    bool is_there;
    /* The driver's own: the names of the file and of its lock in their folder, or null if no file is held, and the descriptors of the folder
     * and of the lock, each -1 once it is closed. */
    char *name;
    char *lock_name;
    int folder;
    int lock;
} lanes_held;

/* A handle that holds no file: `lanes_held held = LANES_NOT_HELD;`. A handle that is static and has no initializer holds none, and
 * in C needs none. */
#ifdef __cplusplus
#define LANES_NOT_HELD (lanes_held{nullptr, 0, false, nullptr, nullptr, 0, 0})
#else
#define LANES_NOT_HELD ((lanes_held){NULL, 0, false, NULL, NULL, 0, 0})
#endif

/* Takes the lock of the file of a path, and reads the file. Symbolic links are followed once, before the lock is taken. A lock's file that a
 * killed process left is replaced. There needs to be no file yet.
 *
 * Refused: LANES_BUSY when another process has had the lock for ten seconds; LANES_MEMORY; LANES_SYSTEM with the system's number: ENOENT when
 * there is no such folder, or the path is a link that leads nowhere; EINVAL when what is there is no regular file; EEXIST when what has the
 * lock's name is no lock that can be taken; EACCES or EROFS, for one, when the file may not be opened for writing. Then no file is held. What the
 * handle held before is let go in each case. */
uint8_t lanes_file_hold(const char *path, lanes_held *held, lanes_place *place);

/* Puts bytes in the place of a held file, and gives the lock back. The file's mode is kept. If it has these bytes already, it is left as it is,
 * and synced: another process may have written it and not synced it.
 *
 * *came is LANES_ON_DISK; or LANES_UNSYNCED when the file has the bytes and it or its folder could not be synced, so that a loss of power may
 * bring an older file back.
 * Refused: LANES_NOT_OPEN when the lock isn't had; LANES_SYSTEM with the system's number. Then the file is as it was; only if the system
 * refused to rename may it be replaced all the same, as on some network drives. The lock is given back too. */
uint8_t lanes_file_replace(lanes_held *held, const uint8_t *bytes, size_t length, uint64_t *came, lanes_place *place);

/* Puts the file of a handle's table in the place of a held file, as lanes_file_replace.
 *
 * Refused, in this order: what lanes_file refuses, and then the file is still held; what lanes_file_replace refuses. */
uint8_t lanes_file_put(lanes_held *held, lanes_table *table, uint64_t *came, lanes_place *place);

/* The sentence of a refusal by the calls above, as lanes_sentence: of LANES_BUSY and LANES_SYSTEM it speaks of the file, and of LANES_SYSTEM it has
 * the system's reason. */
size_t lanes_file_sentence(uint8_t number, const lanes_place *place, uint8_t *sentence, size_t room);

/* Gives the lock back if it is still had, and frees the bytes. A file that was not replaced is as it was. Letting go of no file does nothing.
 * Each file that was held is to be let go, also after it was replaced. */
void lanes_file_let_go(lanes_held *held);

#ifdef __cplusplus
}
#endif

#endif
