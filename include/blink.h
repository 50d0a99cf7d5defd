/* blink.h: an ordered map of 64-bit keys and values that many threads use at once.
 *
 * A map is a B-link tree over a fixed number of pages. Each thread works through a seat
 * of its own, and all seats of a map are made when it is opened. Each answer is that of a
 * plain map. There is one order of all calls, which keeps the order of calls that did not
 * overlap. It is proved for the calls of one seat, and for those of two seats that meet
 * (blink_meet) in between; for others it is tested. A scan is many calls, each of which
 * answers the rows of one leaf; blink_range reads rows as they were at one moment.
 *
 * Behind this header stands a library whose functions are proved: whatever a caller does
 * that keeps the rules below, no call reads or writes memory that is not its own, and
 * each comes back after a bounded number of steps. Nothing checks the rules, since
 * nothing sees C:
 *
 *   1. A seat is all zeros before its first use (BLINK_SEAT_INIT), and is changed by
 *      these functions alone.
 *      Else: the call treats whatever bytes are there as a seat. The program reads and
 *      writes memory at random.
 *   2. A seat is not copied, or only one of the copies is used from then on, and only it
 *      is closed.
 *      Else: two calls work on one seat, or on one that is freed. As above.
 *   3. A seat is in one call at a time. It may go from one thread to another where a
 *      lock, a join or an atomic with memory_order_seq_cst stands between.
 *      Else: as above.
 *   4. What a pointer parameter points to is there, aligned, and used by nobody else
 *      during the call; an array has as many elements as is said; a bool is 0 or 1.
 *      Else: as above.
 *   5. malloc, realloc and free come from one allocator, which aligns to 16 bytes. No
 *      function is called from a signal handler, nor in the child of a fork of a program
 *      with threads, but for those that look keys and rows up, by a seat that was in no
 *      call, where no other thread was in a call that writes: they allocate nothing, but
 *      for blink_range and scans (tested).
 *      Else: the heap's own faults.
 *   6. All seats of one call are of one map: those of blink_try_meet and of
 *      blink_try_close_image. (blink_meet and blink_close_image look first, and answer
 *      BLINK_OTHER_MAP.)
 *      Else: the program reads and writes memory at random.
 *
 * Between two calls nothing of a seat is underway: it holds no page, and keeps nobody
 * waiting. So a seat may lie idle, and one whose thread has died may be closed by another
 * thread. A thread that dies inside of a call takes its seat with it: the seat reads as
 * closed (with the guard below: as in a call), and what that call held stays held. So do
 * not cancel threads inside of calls.
 *
 * With -DBLINK_GUARD the inline functions look at rules 1 to 3 as far as a seat shows it:
 * a null pointer for a seat, a call of a seat that is in a call, and a call of a closed
 * seat other than blink_close end the program with a message.
 *
 * blink_find, and each other function for which there is one with `try` in its name,
 * makes that call again until it is answered. It is inline here, and the library has it
 * under the same name too, for other languages. Each call writes to its seat, even
 * blink_stat, so none takes a const one.
 */
#ifndef BLINK_H
#define BLINK_H

#include <stdbool.h>
#include <stddef.h>
#include <stdint.h>

/* The version of this header. docs/make writes it from the file VERSION, and
 * checks/documents says when it is another one. */
#define BLINK_VERSION_MAJOR 0
#define BLINK_VERSION_MINOR 1
#define BLINK_VERSION_PATCH 0
#define BLINK_VERSION "0.1.0"

#ifndef BLINK_YIELD
#include <sched.h>
/* Lets another thread run: what a call that is to be made again waits by. A program with
 * threads of its own kind may define it before. */
#define BLINK_YIELD() ((void)sched_yield())
#endif

#ifndef BLINK_INLINE
/* What the functions with bodies here are. The library's own file defines it as nothing,
 * and so exports them. */
#define BLINK_INLINE static inline
#endif

#ifdef BLINK_GUARD
#include <stdio.h>
#include <stdlib.h>
#endif

#ifdef __cplusplus
extern "C" {
#endif

/* ---- Codes and types. ---- */

/* What a call answers. Under each call stands which of these it has. */
enum {
    BLINK_OK = 0,          /* done; where a value goes with it, it is written */
    BLINK_ABSENT = 1,      /* the key is not there */
    BLINK_PRESENT = 2,     /* the key was there; which value is written stands there */
    BLINK_NO_ROOM = 3,     /* no free page or frame; nothing has changed */
    BLINK_AGAIN = 4,       /* not done: let another thread run and call again */
    BLINK_BAD_PAGES = 5,   /* the number of pages is not 4 to 2^28 */
    BLINK_BAD_SEATS = 6,   /* the number of seats is not 1 to 64 */
    BLINK_NO_MEMORY = 7,   /* malloc refused; nothing has changed */
    BLINK_BAD_IMAGE = 8,   /* the bytes are no sound image */
    BLINK_CLOSED = 9,      /* the seat is closed */
    BLINK_FEW_ROWS = 10,   /* there is too little room for rows */
    BLINK_SEATS_OPEN = 11, /* a seat of the map is not among these, or was closed before,
                              or somebody else has a share, which no proof excludes */
    BLINK_FEW_BYTES = 12,  /* too few bytes of room for the image: nothing is closed */
    BLINK_OTHER_MAP = 13,  /* the seats are of two maps: nothing was done */
    BLINK_SEATS_LOST = 14, /* all seats are closed, and there is no image. Cannot happen
                              as long as only seats own the map, which is not proved */
    BLINK_BAD_ROWS = 15,   /* the keys of the rows do not rise */
    BLINK_BAD_FILL = 16,   /* pages are to have less than 1 row or more than 14; or so few
                              that the tree would have more than 12 levels */
    BLINK_IN_USE = 17,     /* a place has an open seat: close it first; nothing is done */
    BLINK_UNSTEADY = 18    /* others changed the rows each time they were read */
};

/* The most rows of one leaf: as much room as blink_rows ever needs. */
#define BLINK_LEAF_ROWS 14

/* One thread's place at a map: a pointer that this library owns, or null. */
typedef struct blink_seat {
    void *at;
} blink_seat;

#define BLINK_SEAT_INIT { NULL }

/* A key and its value. */
typedef struct blink_row {
    uint64_t key;
    uint64_t value;
} blink_row;

/* Makes the new value for blink_update of the old one, with the context of the caller. */
typedef uint64_t (*blink_update_fn)(uint64_t value, void *context);

/* How far a part of the rows goes. All zeros before the first part. */
typedef struct blink_part {
    uint64_t count; /* how many rows were written */
    uint64_t next;  /* the key from which the rows go on, itself included, if they do */
    bool more;      /* whether they go on */
    uint32_t near;  /* opaque; pass it back unchanged (any value is safe) */
} blink_part;

/* How full a map is, and what one of its seats has left to do. */
typedef struct blink_stats {
    uint64_t pages;       /* how many pages the map has */
    uint64_t free_pages;  /* how many of them are free */
    uint64_t used_pages;  /* how many are in use; those between wait for calls that run */
    uint64_t frames;      /* how many frames the map has, which hold the words of pages */
    uint64_t free_frames; /* how many of them are free */
    uint64_t waiting;     /* how many pieces of upkeep of the seat wait, 0 to 32 */
    uint64_t dropped;     /* how many were dropped since it was opened, since 32 waited:
                             that costs speed, never answers */
} blink_stats;

/* ---- Opening and closing. ---- */

/* Opens a map without rows, of so many pages, with a seat for each of the `count` places.
 * A page holds up to 14 rows, and some are kept for the tree and for changes underway:
 * plan a page for each 6 rows. With 0 pages it has 1,024, for a map that blink_resize
 * lets grow. All places have to be closed before; with every answer but BLINK_OK they
 * are as they were, here and below.
 *   BLINK_OK          all places are open
 *   BLINK_BAD_PAGES   `pages` is neither 0 nor 4 to 2^28
 *   BLINK_BAD_SEATS   `count` is not 1 to 64
 *   BLINK_IN_USE      a place has an open seat, which blink_close closes
 *   BLINK_NO_MEMORY   malloc refused */
int32_t blink_open(uint32_t pages, blink_seat *seats, size_t count);

/* The same for a map that begins with the rows of an image, as `blink dump` and
 * blink_close_image write it, with as many pages.
 *   BLINK_OK          all places are open
 *   BLINK_BAD_IMAGE   the bytes are no sound image
 *   BLINK_BAD_SEATS   `count` is not 1 to 64
 *   BLINK_IN_USE      a place has an open seat
 *   BLINK_NO_MEMORY   malloc refused */
int32_t blink_open_image(const uint8_t *bytes, size_t length, blink_seat *seats,
                         size_t count);

/* The same with so many pages, as many as the image's map had or more.
 *   BLINK_OK          all places are open
 *   BLINK_BAD_IMAGE   the bytes are no sound image
 *   BLINK_BAD_PAGES   `pages` is less than the image's, or more than 2^28
 *   BLINK_BAD_SEATS   `count` is not 1 to 64
 *   BLINK_IN_USE      a place has an open seat
 *   BLINK_NO_MEMORY   malloc refused */
int32_t blink_open_larger(const uint8_t *bytes, size_t length, uint32_t pages,
                          blink_seat *seats, size_t count);

/* Closes a seat, and leaves it all zeros. A map goes with its last seat, and its rows
 * with it: for an image all seats are closed together, by blink_close_image.
 *   BLINK_OK          it is closed
 *   BLINK_CLOSED      it was closed already */
BLINK_INLINE int32_t blink_close(blink_seat *seat);

/* How many bytes the image of a map of so many pages has at most: 32 + 256 * pages. Up to
 * 65,536 pages it has so many; of more those behind the last one in use are left out. */
uint64_t blink_image_length(uint32_t pages);

/* Closes a map by all its seats, and writes its image, as `blink` and blink_open_image
 * read it, into the caller's array, which has room for so many bytes. With every answer
 * but BLINK_OK and BLINK_SEATS_LOST all seats are open as they were.
 *   BLINK_OK          all seats are closed, and the first `*length` bytes are the image
 *   BLINK_CLOSED      one of these seats was closed before
 *   BLINK_OTHER_MAP   the seats are of two maps
 *   BLINK_SEATS_OPEN  a seat of the map is not among these: so a map of which blink_close
 *                     has closed a seat has no image any more; or somebody else has a
 *                     share, which no proof excludes
 *   BLINK_FEW_BYTES   `room` is too small: `*length` says how many bytes suffice
 *   BLINK_NO_MEMORY   malloc refused
 *   BLINK_SEATS_LOST  all seats are closed, and there is no image: cannot happen as long
 *                     as only seats own the map, which is so today but not proved */
BLINK_INLINE int32_t blink_close_image(blink_seat *seats, size_t count, uint8_t *bytes,
                                       size_t room, uint64_t *length);

/* Gives a map so many pages, as many as it has or more, while no other thread is in a
 * call of it: it is closed by all its seats, to an image in the caller's array, which has
 * room for so many bytes, and opened from it again. So grow by two, before the last
 * sixteenth of the pages is used: a map that is nearly full looks long for room. But for
 * BLINK_OK and BLINK_SEATS_LOST the map has its rows and pages as before.
 *   BLINK_OK          it has so many pages
 *   BLINK_BAD_PAGES   `pages` is less than it has, or more than 2^28
 *   BLINK_NO_MEMORY   malloc refused, here or where the larger map was opened
 *   BLINK_CLOSED, BLINK_OTHER_MAP, BLINK_SEATS_OPEN, BLINK_FEW_BYTES
 *                     as of blink_close_image
 *   BLINK_SEATS_LOST  all seats are closed, since there was no memory for a map of the
 *                     old size either: the first `*length` bytes are the image. Or as
 *                     there: `*length` is 0 then */
BLINK_INLINE int32_t blink_resize(blink_seat *seats, size_t count, uint32_t pages,
                                  uint8_t *bytes, size_t room, uint64_t *length);

/* Whether fewer than a sixteenth of the pages are free, and some more: time to grow. What
 * others have replaced and nobody reads any more is given back first, where too few are.
 *   BLINK_OK          `*is_short` says so
 *   BLINK_CLOSED      the seat is closed; `*is_short` is as it was */
BLINK_INLINE int32_t blink_is_short(blink_seat *seat, bool *is_short);

/* Gives a map fewer pages, by all its seats, while no other thread is in a call of it:
 * its rows are listed into the array `rows`, which has room for `most` of them, an image
 * of them is made in an array with room for so many bytes, twelve rows a leaf, a map of
 * so many pages is opened from that, and then the old one is closed. But for BLINK_OK the
 * map is as it was. A seat that is not among these would keep the old map for itself.
 *   BLINK_OK          it has so many pages
 *   BLINK_BAD_PAGES   `pages` is not 4 to 2^28
 *   BLINK_BAD_SEATS   `count` is not 1 to 64
 *   BLINK_FEW_ROWS    the map has more rows than `most`, or as many
 *   BLINK_NO_ROOM     the rows need more pages
 *   BLINK_FEW_BYTES   `room` is less than blink_image_length(pages)
 *   BLINK_NO_MEMORY   malloc refused
 *   BLINK_CLOSED, BLINK_OTHER_MAP
 *                     as of blink_close_image */
BLINK_INLINE int32_t blink_shrink(blink_seat *seats, size_t count, uint32_t pages,
                                  blink_row *rows, size_t most, uint8_t *bytes,
                                  size_t room);

/* Whether less than an eighth of the pages is used: time to shrink, by two. A map that
 * has shrunk so uses less than a quarter of them, and is not soon short.
 *   BLINK_OK          `*is_sparse` says so
 *   BLINK_CLOSED      the seat is closed; `*is_sparse` is as it was */
BLINK_INLINE int32_t blink_is_sparse(blink_seat *seat, bool *is_sparse);

/* Writes the image of a map of so many pages with these rows, whose keys rise: `fill` of
 * them, 1 to 14, in each leaf but the first. It is as blink_close_image's.
 *   BLINK_OK          the first `*length` bytes are the image
 *   BLINK_BAD_PAGES   `pages` is not 4 to 2^28
 *   BLINK_BAD_ROWS    the keys do not rise
 *   BLINK_BAD_FILL    `fill` is not 1 to 14, or too little for so many rows
 *   BLINK_NO_ROOM     the rows need more pages
 *   BLINK_FEW_BYTES   `room` is too small: `*length` says how many bytes suffice
 *   BLINK_NO_MEMORY   malloc refused */
int32_t blink_image_of(const blink_row *rows, size_t count, uint32_t pages, uint32_t fill,
                       uint8_t *bytes, size_t room, uint64_t *length);

/* Writes an image of the rows of the seat's map while others go on, with as many pages,
 * by a scan into the array `rows`: each key as the map stood at one moment of it. It is
 * no snapshot. `rows` has room for `most` of them, `bytes` for so many.
 *   BLINK_OK          the first `*length` bytes are the image
 *   BLINK_FEW_ROWS    the map has more rows than `most`
 *   BLINK_BAD_FILL    as above, and so the following three
 *   BLINK_NO_ROOM, BLINK_FEW_BYTES, BLINK_NO_MEMORY
 *                     no byte of the image is written
 *   BLINK_CLOSED      the seat is closed */
BLINK_INLINE int32_t blink_save(blink_seat *seat, uint32_t fill, blink_row *rows,
                                size_t most, uint8_t *bytes, size_t room,
                                uint64_t *length);

/* ---- Keys. ---- */

/* Looks a key up.
 *   BLINK_OK          it is there, and `*value` is its value
 *   BLINK_ABSENT      it is not there; `*value` is as it was
 *   BLINK_CLOSED      the seat is closed */
BLINK_INLINE int32_t blink_find(blink_seat *seat, uint64_t key, uint64_t *value);

/* Looks many keys up, each as blink_find does, one after another. `found[i]` says whether
 * `keys[i]` is there, and `values[i]` is its value then, else 0. The pages of eight keys
 * at a time are fetched side by side, which takes a fraction of the time of single calls
 * in a map larger than the processor's own memory.
 *   BLINK_OK          all were looked up
 *   BLINK_CLOSED      the seat is closed; nothing is written */
BLINK_INLINE int32_t blink_find_many(blink_seat *seat, const uint64_t *keys, size_t count,
                                     uint64_t *values, bool *found);

/* Fetches the pages that calls about these keys will read, 8 keys at most, so that they
 * are near when the calls come. It changes nothing.
 *   BLINK_OK          they are on their way
 *   BLINK_CLOSED      the seat is closed */
int32_t blink_fetch(blink_seat *seat, const uint64_t *keys, size_t count);

/* Puts the value at the key, where the key has none.
 *   BLINK_OK          it is put; `*there` is as it was
 *   BLINK_PRESENT     the key has the value `*there`, and keeps it
 *   BLINK_NO_ROOM     no page or frame was free; nothing has changed
 *   BLINK_CLOSED      the seat is closed */
BLINK_INLINE int32_t blink_insert(blink_seat *seat, uint64_t key, uint64_t value,
                                  uint64_t *there);

/* Puts the value at the key, in place of what is there, in one step.
 *   BLINK_OK          the key had no value; `*old` is as it was
 *   BLINK_PRESENT     the key had the value `*old`, and has the new one
 *   BLINK_NO_ROOM     no page or frame was free; nothing has changed
 *   BLINK_CLOSED      the seat is closed */
BLINK_INLINE int32_t blink_put(blink_seat *seat, uint64_t key, uint64_t value,
                               uint64_t *old);

/* Takes the key away.
 *   BLINK_OK          it is gone, and `*gone` is the value that it had
 *   BLINK_ABSENT      it was not there
 *   BLINK_NO_ROOM     no frame was free; nothing has changed
 *   BLINK_CLOSED      the seat is closed */
BLINK_INLINE int32_t blink_delete(blink_seat *seat, uint64_t key, uint64_t *gone);

/* Puts the new value at a key that has the old one.
 *   BLINK_OK          it is put; `*there` is as it was
 *   BLINK_PRESENT     the key has another value, `*there`, and keeps it
 *   BLINK_ABSENT      the key is not there
 *   BLINK_NO_ROOM     no frame was free; nothing has changed
 *   BLINK_CLOSED      the seat is closed */
BLINK_INLINE int32_t blink_change(blink_seat *seat, uint64_t key, uint64_t old_value,
                                  uint64_t new_value, uint64_t *there);

/* Puts at a key that is there what the function makes of its value: a search, and then
 * changes, each to what the function gives for the value seen last, until one is done. So
 * the function may be called several times, but only the last time counts. The call as a
 * whole takes effect at one moment, that of its last change.
 *   BLINK_OK          the key had the value `*old`, and has `*now`
 *   BLINK_ABSENT      the key is not there; both are as they were, here and below
 *   BLINK_NO_ROOM     no frame was free; nothing has changed
 *   BLINK_CLOSED      the seat is closed */
BLINK_INLINE int32_t blink_update(blink_seat *seat, uint64_t key, blink_update_fn make,
                                  void *context, uint64_t *old, uint64_t *now);

/* Adds to the key's value, modulo 2^64, so that UINT64_MAX takes 1 away. A key that is
 * absent counts as 0, as with INCR of Redis, and is inserted. The call as a whole takes
 * effect at one moment, that of its last change or insertion.
 *   BLINK_OK          the key had no value, and has `*now`, which is `delta`
 *   BLINK_PRESENT     the key had a value, and has the sum, `*now`
 *   BLINK_NO_ROOM     no page or frame was free; nothing has changed
 *   BLINK_CLOSED      the seat is closed */
BLINK_INLINE int32_t blink_add(blink_seat *seat, uint64_t key, uint64_t delta,
                               uint64_t *now);

/* ---- Rows. ---- */

/* Rows from a key on, by rising keys, as many as fit into the array. `*count` is how many
 * there are, `*next` the key to go on from where `*more` is true: itself included, here
 * and below. Each leaf is answered as the map stood at one moment of the call; a scan is
 * no snapshot. Look at the answer before `*more`, which stays true with BLINK_CLOSED.
 *   BLINK_OK          the rows are written
 *   BLINK_FEW_ROWS    `room` is 0
 *   BLINK_NO_MEMORY   malloc refused; these are the rows so far, and `*more` is true
 *   BLINK_CLOSED      the seat is closed */
BLINK_INLINE int32_t blink_scan(blink_seat *seat, uint64_t from, blink_row *rows,
                                size_t room, size_t *count, uint64_t *next, bool *more);

/* The same up to the key `last`, itself included. What stands behind these rows in the
 * array is not kept.
 *   BLINK_OK          the rows are written
 *   BLINK_FEW_ROWS    `room` is 0
 *   BLINK_NO_MEMORY   malloc refused; these are the rows so far, and `*more` is true
 *   BLINK_CLOSED      the seat is closed */
BLINK_INLINE int32_t blink_scan_to(blink_seat *seat, uint64_t from, uint64_t last,
                                   blink_row *rows, size_t room, size_t *count,
                                   uint64_t *next, bool *more);

/* Rows from a key on downwards, by falling keys, else as blink_scan. Upwards a row costs
 * less.
 *   BLINK_OK          the rows are written
 *   BLINK_FEW_ROWS    `room` is 0
 *   BLINK_NO_MEMORY   malloc refused; these are the rows so far, and `*more` is true
 *   BLINK_CLOSED      the seat is closed */
BLINK_INLINE int32_t blink_scan_down(blink_seat *seat, uint64_t from, blink_row *rows,
                                     size_t room, size_t *count, uint64_t *next,
                                     bool *more);

/* The same down to the key `last`, itself included.
 *   BLINK_OK          the rows are written
 *   BLINK_FEW_ROWS    `room` is 0
 *   BLINK_NO_MEMORY   malloc refused; these are the rows so far, and `*more` is true
 *   BLINK_CLOSED      the seat is closed */
BLINK_INLINE int32_t blink_scan_down_to(blink_seat *seat, uint64_t from, uint64_t last,
                                        blink_row *rows, size_t room, size_t *count,
                                        uint64_t *next, bool *more);

/* The rows of one leaf from a key on, 14 at most, and how far they go: where not all fit,
 * up to the first that does not. A part may have no row and still go on.
 *   BLINK_OK          the rows are written
 *   BLINK_FEW_ROWS    `room` is 0
 *   BLINK_CLOSED      the seat is closed; `*part` is as it was */
BLINK_INLINE int32_t blink_rows(blink_seat *seat, uint64_t from, blink_row *rows,
                                size_t room, blink_part *part);

/* The same downwards, by falling keys.
 *   BLINK_OK          the rows are written
 *   BLINK_FEW_ROWS    `room` is 0
 *   BLINK_CLOSED      the seat is closed; `*part` is as it was */
BLINK_INLINE int32_t blink_rows_down(blink_seat *seat, uint64_t from, blink_row *rows,
                                     size_t room, blink_part *part);

/* All rows from a key up to the key `last`, both included, by rising keys, as the map had
 * them at one moment of the call: sums of them add up. Where others have changed a leaf
 * since it was read, it is read again from there on, `rounds` times at most. It takes
 * memory for the rows. Until it ends nothing is given back that others replace meanwhile,
 * so it is for some thousand rows, and blink_scan for more.
 *   BLINK_OK          the first `*count` rows of the array are these
 *   BLINK_FEW_ROWS    there are `*count` rows, more than `room`; none is written
 *   BLINK_UNSTEADY    others changed a leaf each time; `*count` is as it was, here and
 *                     below, and no row is written
 *   BLINK_NO_MEMORY   malloc refused
 *   BLINK_CLOSED      the seat is closed */
BLINK_INLINE int32_t blink_range(blink_seat *seat, uint64_t from, uint64_t last,
                                 uint32_t rounds, blink_row *rows, size_t room,
                                 uint64_t *count);

/* The row of the least key. This, and each of the four calls below, reads as a scan does:
 * each leaf on the way as the map stood at one moment of the call.
 *   BLINK_OK          `*row` is that row
 *   BLINK_ABSENT      there is none; `*row` is as it was, here and below
 *   BLINK_CLOSED      the seat is closed */
BLINK_INLINE int32_t blink_first(blink_seat *seat, blink_row *row);

/* The row of the greatest key.
 *   BLINK_OK          `*row` is that row
 *   BLINK_ABSENT      there is none
 *   BLINK_CLOSED      the seat is closed */
BLINK_INLINE int32_t blink_last(blink_seat *seat, blink_row *row);

/* The row of the least key above this one, which need not be there itself. For many rows
 * blink_scan costs less.
 *   BLINK_OK          `*row` is that row
 *   BLINK_ABSENT      there is none
 *   BLINK_CLOSED      the seat is closed */
BLINK_INLINE int32_t blink_next(blink_seat *seat, uint64_t key, blink_row *row);

/* The row of the greatest key below this one.
 *   BLINK_OK          `*row` is that row
 *   BLINK_ABSENT      there is none
 *   BLINK_CLOSED      the seat is closed */
BLINK_INLINE int32_t blink_previous(blink_seat *seat, uint64_t key, blink_row *row);

/* How many rows there are from a key up to the key `last`, both included: for all, 0 and
 * UINT64_MAX. It goes along the rows, and is exact where nobody writes meanwhile.
 *   BLINK_OK          `*count` says so
 *   BLINK_CLOSED      the seat is closed; `*count` is as it was */
BLINK_INLINE int32_t blink_count(blink_seat *seat, uint64_t from, uint64_t last,
                                 uint64_t *count);

/* ---- Upkeep. ---- */

/* Uses idle time: does at most so many pieces of upkeep, then reclaims what was replaced.
 * No program need call it: a seat does its upkeep before its next write.
 *   BLINK_OK          nothing is left to do
 *   BLINK_AGAIN       something is: more than `most` pieces, or others hold it up
 *   BLINK_CLOSED      the seat is closed */
BLINK_INLINE int32_t blink_upkeep(blink_seat *seat, uint32_t most);

/* The same without a bound: does all that can be done now.
 *   BLINK_OK          nothing is left to do
 *   BLINK_AGAIN       something waits for others still
 *   BLINK_CLOSED      the seat is closed */
BLINK_INLINE int32_t blink_upkeep_all(blink_seat *seat);

/* Says how full the map is, and what the seat has left to do. It is no call of the map,
 * and changes nothing. Without a look it takes no time: the free pages are counted while
 * others take and free some, and `used_pages`, `frames` and `free_frames` are as they
 * were. To look it goes over each page and each frame, which takes time with their
 * number; what it counts is exact where no other seat is in a call.
 *   BLINK_OK          `*stats` says so
 *   BLINK_CLOSED      the seat is closed; `*stats` is as it was */
int32_t blink_stat(blink_seat *seat, bool look, blink_stats *stats);

/* ---- Two seats. ---- */

/* The two seats meet: each then has seen all that the other had. A seat that is to meet
 * itself has done so.
 *   BLINK_OK          they have met
 *   BLINK_OTHER_MAP   they are of two maps
 *   BLINK_CLOSED      one of them is closed */
BLINK_INLINE int32_t blink_meet(blink_seat *one, blink_seat *two);

/* Whether the two are seats of one map. A seat is of the map that it is of itself.
 *   BLINK_OK          they are of one map
 *   BLINK_OTHER_MAP   they are of two maps
 *   BLINK_CLOSED      one of them is closed */
BLINK_INLINE int32_t blink_same_map(blink_seat *one, blink_seat *two);

/* ---- What this is. ---- */

/* What a code means, as a text of a few words that is never freed; of any other number
 * that it is no code of this library. */
BLINK_INLINE const char *blink_text(int32_t code);

/* The version of the library that is linked, as "0.1.0", which is never freed. That of
 * the header is BLINK_VERSION. */
const char *blink_version(void);

/* ---- Calls that come back at once. ---- */

/* What the functions above call. None of these waits, and no guard looks at their rules.
 * Told BLINK_AGAIN, a call has not been done, and nothing of it is left, but for a scan's
 * rows: a page is latched by another thread, others hold back what was replaced, or put
 * pages while a search reads. Let another thread run and make it again, or give it up. */

/* Closes a seat, as blink_close.
 *   BLINK_OK, BLINK_CLOSED  as there */
int32_t blink_try_close(blink_seat *seat);

/* Looks a key up, as blink_find.
 *   BLINK_OK, BLINK_ABSENT, BLINK_CLOSED  as there
 *   BLINK_AGAIN       not done */
int32_t blink_try_find(blink_seat *seat, uint64_t key, uint64_t *value);

/* Puts a value, as blink_insert.
 *   BLINK_OK, BLINK_PRESENT, BLINK_NO_ROOM, BLINK_CLOSED  as there
 *   BLINK_AGAIN       not done, and nothing of it is left */
int32_t blink_try_insert(blink_seat *seat, uint64_t key, uint64_t value, uint64_t *there);

/* Puts a value in place of what is there, as blink_put.
 *   BLINK_OK, BLINK_PRESENT, BLINK_NO_ROOM, BLINK_CLOSED  as there
 *   BLINK_AGAIN       not done, and nothing of it is left */
int32_t blink_try_put(blink_seat *seat, uint64_t key, uint64_t value, uint64_t *old);

/* Takes a key away, as blink_delete.
 *   BLINK_OK, BLINK_ABSENT, BLINK_NO_ROOM, BLINK_CLOSED  as there
 *   BLINK_AGAIN       not done, and nothing of it is left */
int32_t blink_try_delete(blink_seat *seat, uint64_t key, uint64_t *gone);

/* Changes a value, as blink_change.
 *   BLINK_OK, BLINK_PRESENT, BLINK_ABSENT, BLINK_NO_ROOM, BLINK_CLOSED  as there
 *   BLINK_AGAIN       not done, and nothing of it is left */
int32_t blink_try_change(blink_seat *seat, uint64_t key, uint64_t old_value,
                         uint64_t new_value, uint64_t *there);

/* The rows of one leaf, as blink_rows.
 *   BLINK_OK, BLINK_FEW_ROWS, BLINK_CLOSED  as there
 *   BLINK_AGAIN       not done: nothing is written */
int32_t blink_try_rows(blink_seat *seat, uint64_t from, blink_row *rows, size_t room,
                       blink_part *part);

/* The same downwards, as blink_rows_down.
 *   BLINK_OK, BLINK_FEW_ROWS, BLINK_CLOSED  as there
 *   BLINK_AGAIN       not done: nothing is written */
int32_t blink_try_rows_down(blink_seat *seat, uint64_t from, blink_row *rows, size_t room,
                            blink_part *part);

/* Rows from a key on up to the key `last`, itself included, as many as fit: what a scan
 * is made of. `*part` says how many are written, and how the scan goes on.
 *   BLINK_OK          where it goes on, `room` rows are written
 *   BLINK_AGAIN       so far, and it goes on: let another thread run before
 *   BLINK_NO_MEMORY   malloc refused; so far, and it goes on
 *   BLINK_CLOSED      the seat is closed; nothing is written */
int32_t blink_try_scan(blink_seat *seat, uint64_t from, uint64_t last, blink_row *rows,
                       size_t room, blink_part *part);

/* The same down to the key `last`, by falling keys.
 *   BLINK_OK, BLINK_AGAIN, BLINK_NO_MEMORY, BLINK_CLOSED  as there */
int32_t blink_try_scan_down(blink_seat *seat, uint64_t from, uint64_t last,
                            blink_row *rows, size_t room, blink_part *part);

/* The rows of one moment, as blink_range.
 *   BLINK_OK, BLINK_FEW_ROWS, BLINK_UNSTEADY, BLINK_NO_MEMORY, BLINK_CLOSED  as there
 *   BLINK_AGAIN       not done: nothing is written */
int32_t blink_try_range(blink_seat *seat, uint64_t from, uint64_t last, uint32_t rounds,
                        blink_row *rows, size_t room, uint64_t *count);

/* Upkeep, as blink_upkeep, which is this call behind the guard.
 *   BLINK_OK, BLINK_AGAIN, BLINK_CLOSED  as there */
int32_t blink_try_upkeep(blink_seat *seat, uint32_t most);

/* Two seats meet, as by blink_meet. Both are of one map, and are two seats.
 *   BLINK_OK, BLINK_CLOSED  as there */
int32_t blink_try_meet(blink_seat *one, blink_seat *two);

/* A place in the memory of the seat's map, whose address blink_same_map compares: it is
 * not to be read. Maps that are open have places of their own.
 *   BLINK_OK          `*place` is that place
 *   BLINK_CLOSED      the seat is closed; `*place` is as it was */
int32_t blink_place(blink_seat *seat, const uint32_t **place);

/* Closes a map, as blink_close_image. All seats are of one map.
 *   BLINK_OK, BLINK_CLOSED, BLINK_SEATS_OPEN, BLINK_FEW_BYTES  as there
 *   BLINK_NO_MEMORY, BLINK_SEATS_LOST  as there */
int32_t blink_try_close_image(blink_seat *seats, size_t count, uint8_t *bytes,
                              size_t room, uint64_t *length);

/* ---- Guards: from here on nothing need be read. ---- */

#ifdef BLINK_GUARD
#define BLINK_IN_CALL ((void *)1)

static inline void blink_refuse_(const char *call, const char *why) {
    fprintf(stderr, "%s: %s\n", call, why);
    abort();
}

/* Moves a seat, open or closed, out of its place for the time of a call: to `room`. */
static inline blink_seat *blink_take_(blink_seat *seat, blink_seat *room,
                                      const char *call) {
    if (!seat) blink_refuse_(call, "no seat");
    room->at = __atomic_exchange_n(&seat->at, BLINK_IN_CALL, __ATOMIC_SEQ_CST);
    if (room->at == BLINK_IN_CALL) blink_refuse_(call, "the seat is in another call");
    return room;
}

/* The same of a seat that has to be open. */
static inline blink_seat *blink_enter_(blink_seat *seat, blink_seat *room,
                                       const char *call) {
    blink_seat *mine = blink_take_(seat, room, call);
    if (!mine->at) blink_refuse_(call, "the seat is closed, or was never opened");
    return mine;
}

static inline void blink_leave_(blink_seat *seat, const blink_seat *mine) {
    __atomic_store_n(&seat->at, mine->at, __ATOMIC_SEQ_CST);
}
#else
#define blink_take_(seat, room, call) ((void)(room), (void)(call), (seat))
#define blink_enter_(seat, room, call) ((void)(room), (void)(call), (seat))
#define blink_leave_(seat, mine) ((void)(seat), (void)(mine))
#endif

/* Makes a call of one seat, between the guards. */
#define BLINK_CALL_(seat, call, answer, ...)                                            \
    do {                                                                                \
        blink_seat room_ = BLINK_SEAT_INIT;                                             \
        blink_seat *mine_ = blink_enter_(seat, &room_, #call);                          \
        (answer) = call(mine_, __VA_ARGS__);                                            \
        blink_leave_(seat, mine_);                                                      \
    } while (0)

/* Makes a call of one seat until there is an answer, and returns that. Between two tries
 * other threads run. */
#define BLINK_RETURN_CALL_(seat, call, ...)                                             \
    for (;;) {                                                                          \
        int32_t answer_;                                                                \
        BLINK_CALL_(seat, call, answer_, __VA_ARGS__);                                  \
        if (answer_ != BLINK_AGAIN) return answer_;                                     \
        BLINK_YIELD();                                                                  \
    }

/* ---- Bodies. ---- */

/* A seat that is closed already passes the guard. */
BLINK_INLINE int32_t blink_close(blink_seat *seat) {
    blink_seat room = BLINK_SEAT_INIT;
    blink_seat *mine = blink_take_(seat, &room, "blink_close");
    int32_t answer = blink_try_close(mine);
    blink_leave_(seat, mine);
    return answer;
}

BLINK_INLINE int32_t blink_find(blink_seat *seat, uint64_t key, uint64_t *value) {
    BLINK_RETURN_CALL_(seat, blink_try_find, key, value)
}

BLINK_INLINE int32_t blink_find_many(blink_seat *seat, const uint64_t *keys, size_t count,
                                     uint64_t *values, bool *found) {
    size_t i;
    for (i = 0; i < count; i++) {
        uint64_t value = 0;
        int32_t answer = BLINK_OK;
        /* Fetching pays where some are fetched together. */
        if (i % 8 == 0 && count - i >= 4) {
            size_t some = count - i < 8 ? count - i : 8;
            BLINK_CALL_(seat, blink_fetch, answer, keys + i, some);
        }
        if (answer != BLINK_CLOSED) answer = blink_find(seat, keys[i], &value);
        if (answer == BLINK_CLOSED) return answer;
        found[i] = answer == BLINK_OK;
        values[i] = value;
    }
    return BLINK_OK;
}

BLINK_INLINE int32_t blink_insert(blink_seat *seat, uint64_t key, uint64_t value,
                                  uint64_t *there) {
    BLINK_RETURN_CALL_(seat, blink_try_insert, key, value, there)
}

BLINK_INLINE int32_t blink_put(blink_seat *seat, uint64_t key, uint64_t value,
                               uint64_t *old) {
    BLINK_RETURN_CALL_(seat, blink_try_put, key, value, old)
}

BLINK_INLINE int32_t blink_delete(blink_seat *seat, uint64_t key, uint64_t *gone) {
    BLINK_RETURN_CALL_(seat, blink_try_delete, key, gone)
}

BLINK_INLINE int32_t blink_change(blink_seat *seat, uint64_t key, uint64_t old_value,
                                  uint64_t new_value, uint64_t *there) {
    BLINK_RETURN_CALL_(seat, blink_try_change, key, old_value, new_value, there)
}

BLINK_INLINE int32_t blink_update(blink_seat *seat, uint64_t key, blink_update_fn make,
                                  void *context, uint64_t *old, uint64_t *now) {
    uint64_t value = 0;
    int32_t answer = blink_find(seat, key, &value);
    if (answer != BLINK_OK) return answer;
    for (;;) {
        const uint64_t before = value, made = make(value, context);
        answer = blink_change(seat, key, before, made, &value);
        if (answer == BLINK_OK) {
            *old = before;
            *now = made;
            return BLINK_OK;
        }
        if (answer != BLINK_PRESENT) return answer;
    }
}

BLINK_INLINE int32_t blink_add(blink_seat *seat, uint64_t key, uint64_t delta,
                               uint64_t *now) {
    uint64_t value = 0;
    int32_t answer = blink_find(seat, key, &value);
    if (answer == BLINK_CLOSED) return answer;
    for (;;) {
        const bool is_there = answer != BLINK_ABSENT;
        const uint64_t sum = is_there ? value + delta : delta;
        answer = is_there ? blink_change(seat, key, value, sum, &value)
                          : blink_insert(seat, key, sum, &value);
        if (answer == BLINK_OK) {
            *now = sum;
            return is_there ? BLINK_PRESENT : BLINK_OK;
        }
        if (answer == BLINK_NO_ROOM || answer == BLINK_CLOSED) return answer;
    }
}

BLINK_INLINE int32_t blink_rows(blink_seat *seat, uint64_t from, blink_row *rows,
                                size_t room, blink_part *part) {
    BLINK_RETURN_CALL_(seat, blink_try_rows, from, rows, room, part)
}

BLINK_INLINE int32_t blink_rows_down(blink_seat *seat, uint64_t from, blink_row *rows,
                                     size_t room, blink_part *part) {
    BLINK_RETURN_CALL_(seat, blink_try_rows_down, from, rows, room, part)
}

BLINK_INLINE int32_t blink_range(blink_seat *seat, uint64_t from, uint64_t last,
                                 uint32_t rounds, blink_row *rows, size_t room,
                                 uint64_t *count) {
    BLINK_RETURN_CALL_(seat, blink_try_range, from, last, rounds, rows, room, count)
}

/* A scan, upwards or downwards, up to the key `last`. */
static inline int32_t blink_list_(blink_seat *seat, bool down, uint64_t from,
                                  uint64_t last, blink_row *rows, size_t room,
                                  size_t *count, uint64_t *next, bool *more) {
    /* The library lists them in memory of its own first. */
    const size_t at_once = 256;
    blink_part part = { 0, 0, true, 0 };
    *count = 0;
    *next = from;
    *more = true;
    if (room == 0) return BLINK_FEW_ROWS;
    while (*more && *count < room) {
        blink_row *rest = rows + *count;
        const size_t left = room - *count;
        const size_t some = left < at_once ? left : at_once;
        int32_t answer;
        if (down)
            BLINK_CALL_(seat, blink_try_scan_down, answer, *next, last, rest, some,
                        &part);
        else
            BLINK_CALL_(seat, blink_try_scan, answer, *next, last, rest, some, &part);
        if (answer == BLINK_CLOSED) return answer;
        *count += (size_t)part.count;
        *more = part.more;
        if (part.more) *next = part.next;
        if (answer == BLINK_NO_MEMORY) return answer;
        if (answer == BLINK_AGAIN) BLINK_YIELD();
    }
    return BLINK_OK;
}

BLINK_INLINE int32_t blink_scan(blink_seat *seat, uint64_t from, blink_row *rows,
                                size_t room, size_t *count, uint64_t *next, bool *more) {
    return blink_list_(seat, false, from, UINT64_MAX, rows, room, count, next, more);
}

BLINK_INLINE int32_t blink_scan_to(blink_seat *seat, uint64_t from, uint64_t last,
                                   blink_row *rows, size_t room, size_t *count,
                                   uint64_t *next, bool *more) {
    return blink_list_(seat, false, from, last, rows, room, count, next, more);
}

BLINK_INLINE int32_t blink_scan_down(blink_seat *seat, uint64_t from, blink_row *rows,
                                     size_t room, size_t *count, uint64_t *next,
                                     bool *more) {
    return blink_list_(seat, true, from, 0, rows, room, count, next, more);
}

BLINK_INLINE int32_t blink_scan_down_to(blink_seat *seat, uint64_t from, uint64_t last,
                                        blink_row *rows, size_t room, size_t *count,
                                        uint64_t *next, bool *more) {
    return blink_list_(seat, true, from, last, rows, room, count, next, more);
}

/* The first row from a key on, upwards or downwards, if there is any such key at all. */
static inline int32_t blink_nearest_(blink_seat *seat, bool down, bool any, uint64_t from,
                                     blink_row *row) {
    blink_row found = { 0, 0 };
    blink_part part = { 0, 0, true, 0 };
    part.next = from;
    while (part.more && part.count == 0) {
        int32_t answer = down ? blink_rows_down(seat, part.next, &found, 1, &part)
                              : blink_rows(seat, part.next, &found, 1, &part);
        if (answer != BLINK_OK) return answer;
    }
    if (part.count == 0 || !any) return BLINK_ABSENT;
    *row = found;
    return BLINK_OK;
}

BLINK_INLINE int32_t blink_first(blink_seat *seat, blink_row *row) {
    return blink_nearest_(seat, false, true, 0, row);
}

BLINK_INLINE int32_t blink_last(blink_seat *seat, blink_row *row) {
    return blink_nearest_(seat, true, true, UINT64_MAX, row);
}

BLINK_INLINE int32_t blink_next(blink_seat *seat, uint64_t key, blink_row *row) {
    return blink_nearest_(seat, false, key < UINT64_MAX, key + 1, row);
}

BLINK_INLINE int32_t blink_previous(blink_seat *seat, uint64_t key, blink_row *row) {
    return blink_nearest_(seat, true, key > 0, key - 1, row);
}

BLINK_INLINE int32_t blink_count(blink_seat *seat, uint64_t from, uint64_t last,
                                 uint64_t *count) {
    blink_row rows[BLINK_LEAF_ROWS];
    blink_part part = { 0, 0, true, 0 };
    uint64_t counted = 0;
    part.next = from;
    do {
        int32_t answer = blink_rows(seat, part.next, rows, BLINK_LEAF_ROWS, &part);
        if (answer != BLINK_OK) return answer;
        while (part.count > 0 && rows[part.count - 1].key > last) part.count--;
        counted += part.count;
    } while (part.more && part.next <= last);
    *count = counted;
    return BLINK_OK;
}

BLINK_INLINE int32_t blink_save(blink_seat *seat, uint32_t fill, blink_row *rows,
                                size_t most, uint8_t *bytes, size_t room,
                                uint64_t *length) {
    blink_stats stats = { 0, 0, 0, 0, 0, 0, 0 };
    blink_row behind;
    size_t count = 0, left = 0;
    uint64_t next = 0;
    bool more = true;
    int32_t answer;
    BLINK_CALL_(seat, blink_stat, answer, false, &stats);
    if (answer == BLINK_OK && most > 0)
        answer = blink_scan(seat, 0, rows, most, &count, &next, &more);
    if (answer == BLINK_OK && more)
        answer = blink_scan(seat, next, &behind, 1, &left, &next, &more);
    if (answer != BLINK_OK) return answer;
    if (left > 0) return BLINK_FEW_ROWS;
    return blink_image_of(rows, count, (uint32_t)stats.pages, fill, bytes, room, length);
}

BLINK_INLINE int32_t blink_upkeep(blink_seat *seat, uint32_t most) {
    int32_t answer;
    BLINK_CALL_(seat, blink_try_upkeep, answer, most);
    return answer;
}

BLINK_INLINE int32_t blink_upkeep_all(blink_seat *seat) {
    int32_t answer = BLINK_AGAIN;
    int round;
    /* Not for ever: what others hold up does not get done by asking. */
    for (round = 0; round < 1024 && answer == BLINK_AGAIN; round++) {
        if (round > 0) BLINK_YIELD();
        answer = blink_upkeep(seat, 64);
    }
    return answer;
}

/* A call of two seats of one map, if there is one; of one that is handed in twice only
 * whether it is open. */
static inline int32_t blink_together_(blink_seat *one, blink_seat *two, const char *call,
                                      int32_t (*calls)(blink_seat *, blink_seat *)) {
    blink_seat rooms[2] = { BLINK_SEAT_INIT, BLINK_SEAT_INIT };
    blink_seat *mine = blink_enter_(one, &rooms[0], call);
    const uint32_t *place = NULL, *other = NULL;
    int32_t answer = blink_place(mine, &place);
    if (one != two) {
        blink_seat *theirs = blink_enter_(two, &rooms[1], call);
        if (answer == BLINK_OK) answer = blink_place(theirs, &other);
        if (answer == BLINK_OK && place != other) answer = BLINK_OTHER_MAP;
        if (answer == BLINK_OK && calls) answer = calls(mine, theirs);
        blink_leave_(two, theirs);
    }
    blink_leave_(one, mine);
    return answer;
}

BLINK_INLINE int32_t blink_same_map(blink_seat *one, blink_seat *two) {
    return blink_together_(one, two, "blink_same_map", NULL);
}

BLINK_INLINE int32_t blink_meet(blink_seat *one, blink_seat *two) {
    return blink_together_(one, two, "blink_meet", blink_try_meet);
}

BLINK_INLINE int32_t blink_close_image(blink_seat *seats, size_t count, uint8_t *bytes,
                                       size_t room, uint64_t *length) {
    size_t i;
    /* The call takes the array, so the guard looks at each seat, and leaves it there. */
    for (i = 0; i < count; i++) {
        int32_t answer = blink_together_(&seats[0], &seats[i], "blink_close_image", NULL);
        if (answer != BLINK_OK) return answer;
    }
    return blink_try_close_image(seats, count, bytes, room, length);
}

BLINK_INLINE int32_t blink_is_short(blink_seat *seat, bool *is_short) {
    blink_stats stats = { 0, 0, 0, 0, 0, 0, 0 };
    uint64_t looks;
    /* Each piece of upkeep looks at some pages alone: so many look at all. */
    for (looks = 0; looks <= stats.pages / 16; looks++) {
        int32_t answer;
        BLINK_CALL_(seat, blink_stat, answer, false, &stats);
        if (answer != BLINK_OK) return answer;
        *is_short = stats.free_pages < stats.pages / 16 + 16;
        if (!*is_short) return BLINK_OK;
        blink_upkeep(seat, 64);
    }
    return BLINK_OK;
}

BLINK_INLINE int32_t blink_resize(blink_seat *seats, size_t count, uint32_t pages,
                                  uint8_t *bytes, size_t room, uint64_t *length) {
    blink_stats stats = { 0, 0, 0, 0, 0, 0, 0 };
    int32_t answer;
    *length = 0;
    if (count == 0) return BLINK_SEATS_OPEN;
    BLINK_CALL_(&seats[0], blink_stat, answer, false, &stats);
    if (answer != BLINK_OK) return answer;
    if (pages < stats.pages || pages > (uint32_t)1 << 28) return BLINK_BAD_PAGES;
    answer = blink_close_image(seats, count, bytes, room, length);
    if (answer != BLINK_OK) return answer;
    answer = blink_open_larger(bytes, (size_t)*length, pages, seats, count);
    if (answer == BLINK_OK) return BLINK_OK;
    return blink_open_image(bytes, (size_t)*length, seats, count) == BLINK_OK
               ? answer
               : BLINK_SEATS_LOST;
}

BLINK_INLINE int32_t blink_is_sparse(blink_seat *seat, bool *is_sparse) {
    blink_stats stats = { 0, 0, 0, 0, 0, 0, 0 };
    int32_t answer;
    BLINK_CALL_(seat, blink_stat, answer, false, &stats);
    if (answer == BLINK_OK)
        *is_sparse = stats.free_pages > stats.pages - stats.pages / 8;
    return answer;
}

BLINK_INLINE int32_t blink_shrink(blink_seat *seats, size_t count, uint32_t pages,
                                  blink_row *rows, size_t most, uint8_t *bytes,
                                  size_t room) {
    enum { BLINK_A_LEAF = 12 };
    blink_seat fresh[64] = { BLINK_SEAT_INIT };
    uint64_t next = 0, length = 0;
    size_t i, listed = 0;
    bool more = false;
    int32_t answer;
    if (count < 1 || count > 64) return BLINK_BAD_SEATS;
    for (i = 0; i < count; i++) {
        answer = blink_together_(&seats[0], &seats[i], "blink_shrink", NULL);
        if (answer != BLINK_OK) return answer;
    }
    answer = blink_scan_to(&seats[0], 0, UINT64_MAX, rows, most, &listed, &next, &more);
    if (answer != BLINK_OK) return answer;
    if (more) return BLINK_FEW_ROWS;
    answer = blink_image_of(rows, listed, pages, BLINK_A_LEAF, bytes, room, &length);
    if (answer != BLINK_OK) return answer;
    answer = blink_open_image(bytes, (size_t)length, fresh, count);
    if (answer != BLINK_OK) return answer;
    for (i = 0; i < count; i++) {
        blink_close(&seats[i]);
        seats[i] = fresh[i];
    }
    return BLINK_OK;
}

BLINK_INLINE const char *blink_text(int32_t code) {
    switch (code) {
        case BLINK_OK: return "done";
        case BLINK_ABSENT: return "the key is not there";
        case BLINK_PRESENT: return "the key was there with a value";
        case BLINK_NO_ROOM: return "no room";
        case BLINK_AGAIN: return "not done: call again";
        case BLINK_BAD_PAGES: return "the number of pages is not 4 to 2^28";
        case BLINK_BAD_SEATS: return "the number of seats is not 1 to 64";
        case BLINK_NO_MEMORY: return "there is no memory";
        case BLINK_BAD_IMAGE: return "the bytes are no sound image";
        case BLINK_CLOSED: return "the seat is closed";
        case BLINK_FEW_ROWS: return "there is too little room for rows";
        case BLINK_SEATS_OPEN: return "a seat of the map is not among these";
        case BLINK_FEW_BYTES: return "there is room for fewer bytes than the image has";
        case BLINK_OTHER_MAP: return "the seats are of two maps";
        case BLINK_SEATS_LOST: return "the map is gone, without an image";
        case BLINK_BAD_ROWS: return "the keys of the rows do not rise";
        case BLINK_BAD_FILL: return "so many rows a page are not 1 to 14, or too few";
        case BLINK_IN_USE: return "a place has an open seat: close it first";
        case BLINK_UNSTEADY: return "others changed the rows each time they were read";
        default: return "no code of this library";
    }
}

#ifdef __cplusplus
}
#endif

#endif
