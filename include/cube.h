/* The partition manager for one binary hypercube: set-up, the loading call and
 * the frame call.
 *
 * Link with libcube.a. The functions always return, keep nothing between calls
 * and need no heap; they call nothing but memcpy and memset. They may run in
 * several threads at once on different buffers.
 *
 * The record is CUBE_RECORD_SIZE bytes that belong to the host: one record for
 * each cube. A frame is one call; the reply is written into a buffer of the
 * host's. The three buffers must not overlap, and each pointer must be valid
 * for its length (a length of 0 goes with any pointer that isn't null).
 *
 * All fields are two bytes, little-endian, unless said.
 *
 * The record has a holder, a condition and star bits for each node x. The star
 * bits, at CUBE_STARS_AT + 2x, are those of the grant that holds the node, as
 * its reply has them, in node numbers; 0 if the node is unheld. From set-up on,
 * or from a record that cube_load gave 0, all nodes of a job have the same, and
 * are its lowest node with each combination of these bits set. A grant writes
 * them at each node that it gives; a release writes 0, and so does a growth at
 * the nodes that its job loses. Past refusal 1 no frame call goes by them.
 *
 * Frames: length, kind, then
 *   good      0x0101, length 6:  node
 *   fault     0x0102, length 6:  node
 *   repaired  0x0103, length 6:  node
 *   request   0x0201, length 8:  job, k (one byte), strategy (one byte)
 *   release   0x0202, length 6:  job
 *   relabel   0x0203, length 4
 *   grow      0x0204, length 8:  job, k (one byte), strategy (one byte)
 *
 * Replies: length, kind, then
 *   granted   0x8001, length 12: job, lowest node, star bits, tried
 *   refused   0x8002, length 8:  number, tried (0 unless number is 14)
 *   done      0x8003, length 6:  for a fault the holder, for a release the
 *                                nodes given back, for a relabel the size of
 *                                D, else 0
 * Reply bytes past the frame keep their values.
 *
 * Strategies, which have names below:
 *   0 buddy   1 Gray   2 tree   3 extended   4 best fit
 * From 0 to 3 the job gets the first free member of the strategy's family;
 * tried is its place there from 1, and with 14 the number of members.
 * Best fit has buddy's family. It looks at the maximal free blocks: the free
 * buddy members, of any dimension, that are in no larger free one. Of those of
 * dimension k or more it takes the smallest, of these the one with the lowest
 * label, and grants that block's lowest part. Tried is the number of maximal
 * free blocks, granted or not; with 14 it is 0 if no node is free.
 *
 * By best fit nothing is wasted with one dead node: where at most one node below
 * 2^n isn't good and nothing is held, of requests by best fit alone, each by
 * another job and with no other call between them, each that meets none of 1 to
 * 9 is granted exactly when 2^k nodes or more are free, and else refused 14.
 *
 * A growth asks for a larger subcube for a job that holds nodes. To it the
 * job's own good nodes count as free, also in best fit's blocks. The job gets
 * what the strategy gives and loses its nodes outside that, faulty ones too. A
 * refused growth leaves it its nodes.
 *
 * A relabel makes the map from D, the directions in which any two nodes below
 * 2^n that aren't good differ. A node that never reported, or was repaired and
 * not reported good since, isn't good. D's directions, ascending, map to 1, 2,
 * .., the others, ascending, to what follows; if D is empty or holds all n,
 * each direction maps to itself.
 *
 * Returned: 0 if the call was accepted, else the number of the first cause
 * that it meets, in this order:
 *    1  the record is not one                      record and reply untouched
 *   18  cube_load alone: a job's nodes and star bits don't form a subcube
 *    2  the reply buffer has under 12 bytes        record and reply untouched
 *    3  frame under 4 bytes, or its length field isn't its size
 *    4  kind not one of the seven
 *    5  size not its kind's
 *    6  job 0
 *    7  k above n (set-up: n above 10)
 *    8  node not below 2^n
 *    9  strategy above 4 (CUBE_STRATEGIES_END or more)
 *   10  the requesting job holds nodes
 *   11  the releasing or growing job holds none
 *   17  growth: 2^k is not more than the number of nodes that the job holds
 *   12  'good' on a faulty node, 'repaired' on one that isn't faulty
 *   13  relabel while any node is held
 *   14  no free member (growth: none is good and unheld by others)
 * From 3 on the refused frame is written too; the record is untouched by every
 * refusal. An accepted call writes the reply's frame, and the record holds the
 * cube after the call.
 *
 * The record is one if size, length field and kind are CUBE_RECORD_SIZE and
 * CUBE_RECORD_KIND, n is at most 10, the map permutes 1 to n and leaves what is
 * above, the byte behind it is 0, conditions are at most 2, nodes from 2^n up
 * have holder and condition 0, and unheld nodes, these included, have star
 * bits 0. Below 2^n any holders pass, and at a held node any star bits: these
 * are for cube_load to test. So a record of kind 0x0001, which has no star
 * bits, is refused.
 */
#ifndef CUBE_H
#define CUBE_H

#include <stddef.h>
#include <stdint.h>

/* The record: its size, its kind, and the first byte of three of its parts,
 * each with an entry for all 1024 nodes: holders and star bits have two bytes
 * a node, conditions one (0 unconfirmed, 1 good, 2 faulty). */
enum {
    CUBE_RECORD_SIZE = 5136,
    CUBE_RECORD_KIND = 0x0002,
    CUBE_HOLDERS_AT = 16,
    CUBE_CONDITIONS_AT = 2064,
    CUBE_STARS_AT = 3088,
};

/* The strategies of a request or a growth. From CUBE_STRATEGIES_END on a number
 * is refused 9. */
enum {
    CUBE_BUDDY = 0,
    CUBE_GRAY = 1,
    CUBE_TREE = 2,
    CUBE_EXTENDED = 3,
    CUBE_BEST_FIT = 4,
    CUBE_STRATEGIES_END,
};

#ifdef __cplusplus
extern "C" {
#endif

/* Makes `record` a fresh cube of dimension n, 0 to 10, whatever bytes it had.
 * Returns 0; or 1 if record_len isn't CUBE_RECORD_SIZE; or 7 if n is above
 * 10. A refused set-up writes nothing. */
uint32_t cube_setup(uint8_t *record, size_t record_len, uint32_t n);

/* Tells whether a list of calls may begin at `record`, as one that comes back
 * from disk. It takes any bytes and writes nothing. Returns 0, or
 *    1  the record is not one, as said above
 *   18  the nodes of some job are not exactly those of one subcube whose star
 *       bits each of them has
 * 1 comes before 18. The subcube is the job's lowest node with each combination
 * of the star bits set; these are below 2^n, and none is set in that node.
 * 18 doesn't ask for conditions: a held node may be faulty.
 *
 * After a 0 all that holds of calls from set-up on holds from this record on:
 * what is held there counts as granted before, its conditions as reported, its
 * map as standing, and only nodes granted since are said to have been good when
 * granted. Every record that calls leave, from set-up on or from such a record
 * on, loads with 0. The frame call doesn't test it: a record that meets 18 and
 * not 1 is served as before, and nothing is promised of its subcubes. */
uint32_t cube_load(const uint8_t *record, size_t record_len);

/* Carries out one frame on a record and writes its reply. */
uint32_t cube_call(uint8_t *record, size_t record_len,
                   const uint8_t *frame, size_t frame_len,
                   uint8_t *reply, size_t reply_len);

#ifdef __cplusplus
}
#endif

#endif
