/* Vapourtrack's door for C and Rust: what a proposed step does to a table's heads, in numbers and bytes alone.

   Images, integers least byte first:
       table   "HTB", version 1 (2 bytes), N (1), S (2), P (2), then N wakes (4 each): 10 + 4 N bytes
       state   "HST", version 1 (2), N (1), clock (4), hearers (8, head 1 in the lowest bit), kind (1), origin (1),
               sent (4), delivery (4), then for each of N heads phase (1), slot (1), timeout (4): 28 + 6 N bytes
       step    two bytes, kind and head: 0,0 advance; 1,i timer of head i; 2,i hear at head i
   N is 1 to 64, S 3 to 10000, P at least 1 with 2 P < S, a wake 1 to 1000000, the clock at most 1000000000.

   Every function answers one number that holds two:
       answer % 256   the refusal number, 0 where nothing is refused
       answer / 256   a count: steps accepted for vt_given and vt_policy, whatever the number;
                      bytes written for the others, 0 where it refuses

   Refusal numbers:
       1 table image of wrong length        2 table mark or version wrong     3 table number outside its range
       4 state image of wrong length        5 state mark, version or N wrong  6 a state rule broken
       7 no such step                       8 advance while something is due  9 that timer isn't due
      10 that head isn't a hearer, or delivery isn't now                     11 advance would pass the ceiling
      12 room too short
   They come in one order: the table's (1 under 10 bytes, 2, 3 for N, 1, 3), the state's (4, 5, 6), the operation's own,
   then 12. A refusal changes no byte of the room, also where a run stops at a refused step: to have the state before that
   step, run the accepted ones again, the first 2 * (answer / 256) bytes of the pairs. Past what is written the room stays
   as it was.

   A length of 0 may go with any pointer that is not null. A room must not overlap another argument. */
#ifndef VAPOURTRACK_H
#define VAPOURTRACK_H

#include <stddef.h>
#include <stdint.h>

/* The fresh state of a table: writes its image, 28 + 6 N bytes. */
uint64_t vt_fresh(const uint8_t *table, size_t table_length, uint8_t *room, size_t room_length);

/* Judges the proposed step (kind, head): writes the next state's image, as long as the state image given. */
uint64_t vt_judge(const uint8_t *table, size_t table_length, const uint8_t *state, size_t state_length,
                  uint8_t kind, uint8_t head, uint8_t *room, size_t room_length);

/* Lists the steps that are accepted now: writes them as pairs of bytes, at most 256 bytes, none where no step is open. */
uint64_t vt_list(const uint8_t *table, size_t table_length, const uint8_t *state, size_t state_length,
                 uint8_t *room, size_t room_length);

/* Plays steps given as pairs of bytes, up to the first that is refused; a lone last byte is refused with 7.
   Writes the image of the state they lead to, as long as the state image given. */
uint64_t vt_given(const uint8_t *table, size_t table_length, const uint8_t *state, size_t state_length,
                  const uint8_t *pairs, size_t pairs_length, uint8_t *room, size_t room_length);

/* Lets the fixed policy play up to count steps; a count above 100000 is taken as 100000. Fewer steps with number 0 mean
   that no step was open any more. Writes as vt_given does. */
uint64_t vt_policy(const uint8_t *table, size_t table_length, const uint8_t *state, size_t state_length,
                   size_t count, uint8_t *room, size_t room_length);

#endif
