/* The proved static libraries for C: libsynthdef.a and libengine.a, which `host/archives` writes to
 * target/staticlib/.
 *
 * A run passes as a pointer to its first element and its length in elements. The pointer is not
 * null, also where the length is 0, and runs that are written lie apart from all others. Nothing is
 * kept from one call to the next but in the runs that the caller lends. Integers pass as their
 * 32-bit patterns, floats as theirs.
 *
 * Of the host libengine.a asks for memcpy and memset, libsynthdef.a for memset, and nothing else.
 *
 * A call uses the caller's stack and no heap. A thread of 128 KB is enough for every call, whatever it
 * is given: a file with a definition of more than 256 units, which is refused, takes some 75 KB of it,
 * and all else 31 KB or less. The time that a file takes grows with its size, but where the units of a
 * definition of more than some 1 MB name others far before them: there it grows with the square of
 * their number, to some 10 ms at 4 MB and some seconds at 64 MB. */

#ifndef LIMUDVEK_H
#define LIMUDVEK_H

#include <stddef.h>
#include <stdint.h>

#ifdef __cplusplus
extern "C" {
#endif

/* SynthDef files of version 1 and version 2, whose definitions are the same. A definition may take
 * 2,048 bytes in version 2. Places are those in the file as it lies. */

/* The refusal's number (2 to 11), or 0 where the file is accepted. */
uint32_t synthdef_refusal(const uint8_t *file, size_t length);

/* The place of the first byte at fault, or 0 where the file is accepted. */
uint64_t synthdef_place(const uint8_t *file, size_t length);

/* The version of an accepted file, 1 or 2; 0 where it is refused. */
uint32_t synthdef_version(const uint8_t *file, size_t length);

/* How many definitions an accepted file has; 0 where it is refused. */
uint32_t synthdef_count(const uint8_t *file, size_t length);

/* Where a definition's name starts in the file and where it ends, counted from definition 0; both 0
 * where there is no such definition. */
uint64_t synthdef_name_start(const uint8_t *file, size_t length, uint32_t index);
uint64_t synthdef_name_end(const uint8_t *file, size_t length, uint32_t index);

/* Writes the version 2 file of the same definitions from the first byte of out on, and answers its
 * length, at most 65,546; bytes past it stay. Of a version 2 file that is the file itself. Answers 0
 * where the file is refused or out is too short, and then nothing is written. */
uint64_t synthdef_widen(const uint8_t *file, size_t length, uint8_t *out, size_t out_length);

/* The engine. It lives in two lent runs, which docs/LAYOUT.md describes. It takes files of both
 * versions, keeps their definitions as version 2 has them, and exports version 2. */

/* The lengths of the runs, in words and in bytes. */
uint64_t engine_words(void);
uint64_t engine_arena(void);

/* Makes a fresh engine of the two runs. Answers 0, or 1 where a length is wrong. */
uint32_t engine_fresh(uint32_t *words, size_t words_length, uint8_t *arena, size_t arena_length);

/* Does a command, or refuses it and changes nothing. Answers the refusal's number, 0 where it was
 * accepted, plus 256 times the place (refusals 2 to 11) or the length that was written to the reply
 * (queries and export). An op that is none of these, or a value's kind d other than 0 and 1, answers
 * 255 and changes nothing.
 *
 *    1 /d_recv       bytes: the file         15 /n_fill       a, index b, count c, value d e
 *    2 /d_free       bytes: the name         16 /n_fill       a, bytes: the name, count c, value d e
 *    3 /s_new        bytes: the name,        17 /n_map        a, index b, bus c
 *                    a number, b action,     18 /n_map        a, bytes: the name, bus c
 *                    c target                19 /c_set        bus a, value d e
 *    4 /g_new        a, b, c                 20 /c_fill       start a, count c, value d e
 *    5 /n_free       a                       21 /s_get        a, index b
 *    6 /g_freeAll    a                       22 /s_get        a, bytes: the name
 *    7 /g_deepFree   a                       23 /c_get        a
 *    8 /n_before     a b                     24 /n_query      a
 *    9 /n_after      a b                     25 /g_queryTree  a, flag b
 *   10 /g_head       a b                     26 /status
 *   11 /g_tail       a b                     27 export
 *   12 /n_run        a, flag b
 *   13 /n_set        a, index b, value d e
 *   14 /n_set        a, bytes: the name, value d e
 *
 * A value is a float's pattern in e where d is 0, an integer in e where d is 1. A control's name means the
 * index of its first entry, and covers the controls from there up to the next larger index that has a name,
 * else up to the last: a fill by name (16) of more is refused with 28 on a synth, after 21, and on a group
 * fills each synth as far as the name covers there.
 *
 * 28 is a recall (version a, node b, bytes: the definition's name), which takes a store too: here it answers
 * 255, in a list 34, and message_write says 26 or 27 of it. settings_recall does it. */
uint64_t engine_apply(uint32_t op, uint32_t a, uint32_t b, uint32_t c, uint32_t d, uint32_t e,
                      const uint8_t *bytes, size_t bytes_length,
                      uint32_t *words, size_t words_length,
                      uint8_t *arena, size_t arena_length,
                      uint8_t *reply, size_t reply_length);

/* Does the command that an OSC message is, or refuses it and changes nothing. Answers as engine_apply
 * does, where the refusals come in this order: 1; 26 where the message is malformed; 27 where no
 * command has its address, or not with these tags; those of the command. A place counts from the first
 * byte of the file, not of the message.
 *
 * A message is a padded address, a padded tag string and the arguments: int32 (i), float32 (f), a
 * padded string (s), or bytes after their length, padded (b). Numbers have their highest byte first. A
 * string has bytes from 1 to 127, and one to four zeros after it. The addresses with their tags, where
 * k is i or s (an index or a name) and v is f or i:
 *
 *   /d_recv  b     /n_free     i    /n_before  ii   /n_set   ikv    /c_get        i
 *   /d_free  s     /g_freeAll  i    /n_after   ii   /n_fill  ikiv   /n_query      i
 *   /s_new   siii  /g_deepFree i    /g_head    ii   /n_map   iki    /s_get        ik
 *   /g_new   iii   /n_run      ii   /g_tail    ii   /c_set   iv     /g_queryTree  ii
 *                                                   /c_fill  iiv    /status */
uint64_t engine_message(const uint8_t *message, size_t message_length,
                        uint32_t *words, size_t words_length,
                        uint8_t *arena, size_t arena_length,
                        uint8_t *reply, size_t reply_length);

/* Does the commands of a list one by one, up to the first that is refused; those before it stay done. It
 * leaves what sending them one by one leaves, and the state is checked once. An item is twelve words:
 *
 *   op a b c d e   as engine_apply takes them; what the op does not take is not looked at
 *   start length   its bytes are bytes[start .. start + length], within bytes also where the op takes none
 *   0 0 0 0
 *
 * Answers the refusal's number, 0 where all were accepted, plus 256 times how many were accepted before
 * it (all of them where it is 0), plus 2^24 times the place (refusals 2 to 11). Before the first command
 * is done, and then nothing changes and none is accepted: 255 where items_length is no multiple of 12, an
 * op or a value's kind is none, one of the last four words is not 0, or bytes are named that are not
 * there; then 1; then 34 where the list has more than 512 commands, one that replies (op 21 to 27), or a
 * recall (28). */
uint64_t engine_list(const uint32_t *items, size_t items_length,
                     const uint8_t *bytes, size_t bytes_length,
                     uint32_t *words, size_t words_length,
                     uint8_t *arena, size_t arena_length);

/* Why a node is silent. It is a question and no command: nothing changes, and a generated number, which no
 * command can name, means its own node. -1 means the latest synth while it lives. Answers 1 where the state is
 * refused, and nothing else then; or 256 times the reason, plus 65,536 times its value. Of these reasons it is
 * the first that is true, for every number:
 *
 *   1 no such node
 *   2 it is a group
 *   3 it is off by its own flag
 *   4 it is on, and a group above it is off; the value is the number of the one nearest the root
 *   5 it runs; the value is its place in the running order, from 1
 */
uint64_t engine_why(uint32_t number,
                    const uint32_t *words, size_t words_length,
                    const uint8_t *arena, size_t arena_length);

/* Saved settings by version: for each definition name up to 16 versions of control settings, in a store that
 * the caller lends, of any length. docs/LAYOUT.md describes it; zeros are an empty one. A store that is not
 * well formed is refused with 31, whichever name is asked for. A refused call changes nothing. The time that
 * a call takes is at most the store's size times its names and settings together. */

/* Saves the own floats of a synth, also where they are mapped, as a new version under the name of its own
 * definition: each under the first of its control's names that looks up to it; a control without one is left
 * out. Versions of a name rise from 1, and none is given again. Behind the new contents the store is zeroed.
 * Answers 256 times the version; or 1, 31, 17, 18 (a group), 30 (16 versions stand there), 33 (the new
 * contents are longer than the store, or version 4,294,967,295 was given), in this order. */
uint64_t settings_save(uint32_t node,
                       const uint32_t *words, size_t words_length,
                       const uint8_t *arena, size_t arena_length,
                       uint8_t *store, size_t store_length);

/* Sets the controls of a synth as a version that was saved under a definition's name has them, in stored
 * order: each as /n_set by name does in the synth's own definition, whichever that is. Names that it lacks are
 * skipped. Answers 0; or 1, 31, 17, 18, 32 (no such version under that name), in this order. */
uint32_t settings_recall(const uint8_t *name, size_t name_length, uint32_t version, uint32_t node,
                         const uint8_t *store, size_t store_length,
                         uint32_t *words, size_t words_length,
                         const uint8_t *arena, size_t arena_length);

/* Takes a version out of the store; what lies behind it closes up, and the rest is zeroed. Answers 0; or 31,
 * then 32. */
uint32_t settings_drop(const uint8_t *name, size_t name_length, uint32_t version,
                       uint8_t *store, size_t store_length);

/* Writes a command, given as engine_apply takes it, as the OSC message that is read as that command,
 * from the first byte of out on; bytes past it stay. What the command does not take is not looked at.
 * Answers 256 times the message's length; or a refusal's number, and then nothing is written: 255 as
 * above; 26 where a name has a byte that is not from 1 to 127, or a file is longer than 2,147,483,647
 * bytes; 27 where the command has no address (export, recall); 24 where out is too short. */
uint64_t message_write(uint32_t op, uint32_t a, uint32_t b, uint32_t c, uint32_t d, uint32_t e,
                       const uint8_t *bytes, size_t bytes_length,
                       uint8_t *out, size_t out_length);

#ifdef __cplusplus
}
#endif

#endif
