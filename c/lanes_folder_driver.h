/* Follows the commands of lanes_folder_begin in a folder of parts: it makes the calls that lanes_folder_next asks for, by POSIX. */
#ifndef LANES_FOLDER_DRIVER_H
#define LANES_FOLDER_DRIVER_H

#include "lanes.h"

#ifdef __cplusplus
extern "C" {
#endif

/* How many bytes the name of a part has, and one more. */
enum { LANES_PART_NAME = 39 };

/* The name of a part, with a byte 0 at its end. */
typedef char lanes_part_named[LANES_PART_NAME];

/* Names of parts. free() frees them. */
typedef struct lanes_part_names {
    lanes_part_named *names;
    size_t count;
} lanes_part_names;

/* The name of a new temporary, with a byte 0 at its end. */
typedef char lanes_temporary[32];

/* Draws the name of a temporary. Answers 0, or LANES_SYSTEM if the system has no random numbers. */
uint8_t lanes_folder_draw(lanes_temporary name, lanes_place *place);

/* Follows a turn that was begun, as by lanes_parts_pack, in the folder of a path, and ends it. `part` are the bytes of its part, as
 * lanes_folder_part gives them. Once it has removed parts, as a pack does, it sweeps the folder. Answers as lanes_folder_follow. */
uint8_t lanes_folder_drive(const char *path, lanes_turn *turn, const uint8_t *part, size_t part_length, lanes_part_names *listed, uint64_t *came,
                           lanes_place *place);

/* Removes what killed processes left in the folder of a path: each temporary that no process has. Answers 0, or the number of a refusal, with its
 * place. */
uint8_t lanes_folder_sweep(const char *path, lanes_place *place);

/* Reads the parts of these names in the folder of a path, and takes them into a handle that is closed. *is_gone is 1 if one of them is gone
 * meanwhile, so that they are to be listed anew; else it is 0. *at is the part that was refused or is gone, or the number of names if the folder can't be opened. Answers 0, or the number of a refusal,
 * with its place; the handle is closed then, and if a part is gone. */
uint8_t lanes_folder_take(const char *path, const lanes_part_names *names, lanes_parts *parts, int *is_gone, size_t *at, lanes_place *place);

/* Reads all parts of the folder of a path into a handle that is closed, anew if one of them is gone meanwhile, since another process packs. Nothing is
 * written. `names` are given the parts' names; free() frees them, also if it is refused. Answers 0, or the number of a refusal, with its place: of
 * the part `*at` of `names`, or of the folder if that has fewer. LANES_BUSY is answered if others have the folder, or parts come and go, for ten
 * seconds. A folder without parts is no replica: then no part is taken. */
uint8_t lanes_folder_read(const char *path, lanes_parts *parts, lanes_part_names *names, size_t *at, lanes_place *place);

/* Follows a command of lanes.h in the folder of a path. `about` are the parts that are replaced, removed or kept, or that were looked at; it may
 * be null, for none.
 * `listed` is given the names that a listing gave, or none when the command is refused, and may be null; free() frees them.
 *
 * A part is put with the mode of the part of least name that is there; in a folder without parts the mode goes by the process's umask. If a sweep
 * took its temporary, it is made anew.
 *
 * Answers 0, and in *came what the command has come to, as LANES_ON_DISK; or the number of a refusal, with its place: LANES_MEMORY, also if the
 * system has no memory; LANES_SYSTEM with the system's number; and what lanes_folder_begin and lanes_folder_next refuse. */
uint8_t lanes_folder_follow(const char *path, uint8_t command, const uint8_t *part, size_t part_length, const lanes_part_names *about,
                            lanes_part_names *listed, uint64_t *came, lanes_place *place);

/* The same of a part that relies on those of the names of `relied`, as LANES_FOLDER_KEEP_AND_PUT has it. `relied` may be null, for none. */
uint8_t lanes_folder_follow_relying(const char *path, uint8_t command, const uint8_t *part, size_t part_length, const lanes_part_names *about,
                                    const lanes_part_names *relied, lanes_part_names *listed, uint64_t *came, lanes_place *place);

#ifdef __cplusplus
}
#endif

#endif
