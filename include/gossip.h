/* The simulated gossip network between tills, as C functions.
 *
 * Link with crates/gossip/out/libgossip.a, which `rt lib` in crates/gossip makes.
 *
 * Every function takes any memory contents and any arguments. A slice is a pointer and its number of elements. A reply's `number`
 * is 0 where nothing refused the call; else it is the number of the first question answered "no", every other field is 0, and
 * every table and output is left as found.
 *
 *   1  a lent table does not have the opening's size, or holds what no accepted opening and no call leaves in it (see below); an
 *      output is too short
 *   2  opening: sizes beyond the limits (see below), or two type names or two shard keys alike
 *   3  opening: latency above 60 s, a jitter fraction that is neither 0 nor 2^-20 to 1, or a rate outside 0 to 1 (NaN is)
 *   4  a till at or above the till count
 *   5  a type, class or shard out of range, a mask bit beyond the opening's types or shards, a tier above 3
 *   6  more than 65,536 wire bytes (a digest by itself: 65,700)
 *   7  now above 2^60
 *   8  the fault stream or a link's stream has given 2^40 words
 *   9  the sequence would pass 4,294,967,295
 *  10  a selected till has no free seen slot
 *  11  the waiting slots do not take three copies for each selected till
 *  12  no rule or block place is free, or 4,294,967,295 rules were installed
 *  13  the drop card is not exact: bit 7 of its map set, bit 6 without bit 5, a tier above 3, or another length than the map says
 *  14  the output has no row for some copy due
 *  18  a window's end is at or before its start, a closed window's before it; asked after 13
 *
 * Question 1 asks of each table that a call is lent, `setup` always among them:
 *
 *   setup    the length; sizes and regions within the limits, latency, fraction and rates within those of question 3
 *   net      the length; no more waiting copies, rules and block windows than there are slots
 *   names    the length; length bytes of at most 64 for the opening's types and of at most 16 for its shards
 *   tills    the length; handler masks without a bit beyond the types, shard masks without one beyond the shards
 *   words, keys, rules   the length alone: a rule may name a till or a type that does not exist
 *   prices   the length; with a plan, bases of at most 160 ms, rates of at least 100,000,000 bytes a second, and for each till a
 *            region below their number (0 regions act as 1)
 *   seen     the length; no more marks of a till than its slots
 *   waiting  the length; of each copy that waits, tills, type and class in range
 *   rings    the length; of each ring a count of at most 64 and a first place below 64; of each message in it, the class in range
 *            and at most 65,536 wire bytes
 *   blocks   the length; of each window that stands, both tills in range
 *   log      the length; a count of at most the capacity and a first place below it (without capacity, a count of 0); of each
 *            record, tills, type and class in range
 *
 * It does not ask for the order of rows, nor for their times, sequences, ids, tags, shards and windows, nor for what unused slots
 * hold. The opening asks for the lengths alone, those of the key (32) and of the masks (one a till) too: it overwrites what it
 * needs.
 *
 * The limits: 64 tills, 16 types with names of 64 bytes, 8 classes, 16 shards with keys of 16 bytes, 1 to 4,096 waiting slots, 1 to
 * 4,096 seen slots a till, a log of 0 to 4,096 records, 0 to 16 regions. A limit is one of the number given, used or not: with
 * `planned` 0 and 17 regions an opening is refused with 2.
 *
 * The tables, written by the calls alone: setup (the opening's numbers), net (counters), names (written by the caller before the
 * opening: for each of 16 types a length byte and 64 bytes, then for each of 16 shards a length byte and 16 bytes), tills, words
 * (one word count for each of 64 x 64 links), keys (8 words for each link), prices, seen, waiting, rings, rules, blocks, log.
 * gossip_table_sizes gives their lengths. A call is lent the tables that concern it; const ones it only reads. */
#ifndef GOSSIP_H
#define GOSSIP_H
#include <stddef.h>
#include <stdint.h>
#ifdef __cplusplus
extern "C" {
#endif

/* A target: a shard's number, or this for a global entry. */
#define GOSSIP_GLOBAL 16
/* Words of a waiting copy (from, to, type, class, sent at, delivered at, shard or global, wire bytes, sequence, whether an
 * original, id, tag), of a flush's row (a copy, then whether a gossip and a host handler take it), of a log record (the first
 * eight of a copy). */
#define GOSSIP_COPY 12
#define GOSSIP_ROW 14
#define GOSSIP_RECORD 8

/* latency in nanoseconds; jitter fraction and four rates. Without a spike a copy's latency before transmission lies less than
 * 1 ns from the greater of 1 ms and latency + latency * jitter * (2k - 2^52) / 2^52, k being the top 52 bits of its draw. */
struct GossipNetworkConfig { uint64_t latency; double jitter, loss, duplicate, replay, spike; };
/* sizes of an opening; seen slots a till, waiting slots, log capacity */
struct GossipNetworkSizes { uint64_t tills, types, classes, shards, seen, waiting, log; };
/* planned 0: no regions, whatever `regions` says (up to 16) */
struct GossipRegionPlan { uint64_t planned, regions, seed; };
/* elements of each table */
struct GossipTableSizes { uint64_t number, setup, net, names, tills, words, keys, prices, seen, waiting, rings, rules, blocks, log; };
struct GossipDone { uint64_t number; };
/* found 0: there is none */
struct GossipValue { uint64_t number, found, value; };
struct GossipAccepted { uint64_t number, sent, deduplicated, partition, loss, fault; };
/* delivered: rows with a handler */
struct GossipFlushed { uint64_t number, rows, delivered, dropped; };
struct GossipMarks { uint64_t number, count; };
struct GossipCopied { uint64_t number, copies; };
struct GossipTally { uint64_t deliveries, bytes; };
/* forced: records given up since the last drain; tallies: of each class, since then */
struct GossipDrained { uint64_t number, records, forced; struct GossipTally tallies[8]; };
struct GossipTallied { uint64_t number, deliveries, bytes; };
/* the digest as 8 little-endian words */
struct GossipHashed { uint32_t number; uint32_t words[8]; };

/* Question 2, of the sizes and the regions. The length of each table for an opening. */
struct GossipTableSizes gossip_table_sizes(struct GossipNetworkSizes sizes, struct GossipRegionPlan plan);

/* Questions 1, 2, 3, 5. Key: the fault stream's 32 bytes; masks: hosted shards of each till. Writes setup, net, tills, words, keys, prices, seen, rings, log. */
struct GossipDone gossip_open(struct GossipNetworkConfig config, struct GossipNetworkSizes sizes,
    struct GossipRegionPlan plan, uint64_t seed, const uint8_t *key, size_t key_n, const uint64_t *masks, size_t masks_n,
    const uint8_t *names, size_t names_n, uint64_t *setup, size_t setup_n, uint64_t *net, size_t net_n, uint64_t *tills,
    size_t tills_n, uint64_t *words, size_t words_n, uint32_t *keys, size_t keys_n, uint64_t *prices, size_t prices_n,
    uint64_t *seen, size_t seen_n, const uint64_t *waiting, size_t waiting_n, uint64_t *rings, size_t rings_n,
    const uint64_t *rules, size_t rules_n, const uint64_t *blocks, size_t blocks_n, uint64_t *log, size_t log_n);

/* Questions 1, 4 to 11. opens 0: the payload does not open, and the call changes nothing. Leaves setup, names, tills, keys, prices and blocks alone. */
struct GossipAccepted gossip_accept(const uint64_t *setup, size_t setup_n, uint64_t *net, size_t net_n,
    const uint8_t *names, size_t names_n, const uint64_t *tills, size_t tills_n, uint64_t *words, size_t words_n,
    const uint32_t *keys, size_t keys_n, const uint64_t *prices, size_t prices_n, uint64_t *seen, size_t seen_n,
    uint64_t *waiting, size_t waiting_n, uint64_t *rings, size_t rings_n, uint64_t *rules, size_t rules_n,
    const uint64_t *blocks, size_t blocks_n, const uint8_t *wire, size_t wire_n, uint64_t from, uint64_t now,
    uint64_t kind, uint64_t message_class, uint64_t scope, uint64_t tag, uint64_t opens);

/* Questions 1, 7, 14. Rows stand at the front of out. Leaves tills and blocks alone. */
struct GossipFlushed gossip_flush(const uint64_t *setup, size_t setup_n, uint64_t *net, size_t net_n,
    const uint64_t *tills, size_t tills_n, uint64_t *seen, size_t seen_n, uint64_t *waiting, size_t waiting_n,
    const uint64_t *blocks, size_t blocks_n, uint64_t *log, size_t log_n, uint64_t *out, size_t out_n, uint64_t now);

/* Questions 1, 4. Marks, handlers and shards go, waiting copies stay. */
struct GossipDone gossip_take_down(const uint64_t *setup, size_t setup_n, uint64_t *tills, size_t tills_n, uint64_t *seen,
    size_t seen_n, uint64_t t);

/* Questions 1, 4, 5. Up, with the shards given and no handlers; marks stay. */
struct GossipDone gossip_bring_up(const uint64_t *setup, size_t setup_n, uint64_t *tills, size_t tills_n, uint64_t t,
    uint64_t shards);

/* Questions 1, 4, 5. Two masks of types. */
struct GossipDone gossip_set_handlers(const uint64_t *setup, size_t setup_n, uint64_t *tills, size_t tills_n, uint64_t t,
    uint64_t gossip, uint64_t host);

/* Questions 1, 4. value 1 where the till is down. */
struct GossipValue gossip_is_down(const uint64_t *setup, size_t setup_n, const uint64_t *tills, size_t tills_n,
    uint64_t t);

/* Questions 1, 4. The till's ids, rising, to the front of out, which has room for every seen slot. */
struct GossipMarks gossip_marks(const uint64_t *setup, size_t setup_n, const uint64_t *seen, size_t seen_n, uint64_t t,
    uint64_t *out, size_t out_n);

/* Questions 1, 4, 12. The directed pair, always. */
struct GossipDone gossip_block(const uint64_t *setup, size_t setup_n, uint64_t *net, size_t net_n, uint64_t *blocks,
    size_t blocks_n, uint64_t from, uint64_t to);

/* Questions 1, 4, 12, 18. From start on, and not at end, which is after start. */
struct GossipDone gossip_block_during(const uint64_t *setup, size_t setup_n, uint64_t *net, size_t net_n, uint64_t *blocks,
    size_t blocks_n, uint64_t from, uint64_t to, uint64_t start, uint64_t end);

/* Questions 1, 4. Every window of the pair goes. */
struct GossipDone gossip_unblock(const uint64_t *setup, size_t setup_n, uint64_t *net, size_t net_n, uint64_t *blocks,
    size_t blocks_n, uint64_t from, uint64_t to);

/* Questions 1, 4, 7. value 1 where a window of the pair holds now. */
struct GossipValue gossip_is_blocked(const uint64_t *setup, size_t setup_n, const uint64_t *net, size_t net_n,
    const uint64_t *blocks, size_t blocks_n, uint64_t from, uint64_t to, uint64_t now);

/* Questions 1, 12, 13, 18. value is the rule's id. 18 is asked of a card whose bit 5 stands; bit 6 beside it, which has no bytes,
 * says that the window's end belongs to it. */
struct GossipValue gossip_install(const uint64_t *setup, size_t setup_n, uint64_t *net, size_t net_n, uint64_t *rules,
    size_t rules_n, const uint8_t *card, size_t card_n);

/* Question 1. The last fired count; found 0 where the id is gone. */
struct GossipValue gossip_remove(const uint64_t *setup, size_t setup_n, uint64_t *net, size_t net_n, uint64_t *rules,
    size_t rules_n, uint64_t id);

/* Question 1. found 0 where the id is gone. */
struct GossipValue gossip_fired(const uint64_t *setup, size_t setup_n, const uint64_t *net, size_t net_n,
    const uint64_t *rules, size_t rules_n, uint64_t id);

/* Questions 1, 4, 5, 7, 8. value 1 for a drop; each probability rule that is met takes two words of the fault stream. */
struct GossipValue gossip_decide(const uint64_t *setup, size_t setup_n, uint64_t *net, size_t net_n, uint64_t *rules,
    size_t rules_n, uint64_t from, uint64_t to, uint64_t kind, uint64_t tier, uint64_t now);

/* Questions 1, 4. Originals waiting for the till; duplicates and replays are left out. */
struct GossipValue gossip_in_transit(const uint64_t *setup, size_t setup_n, const uint64_t *net, size_t net_n,
    const uint64_t *waiting, size_t waiting_n, uint64_t t);

/* Question 1. found 0 where nothing waits. */
struct GossipValue gossip_next_time(const uint64_t *setup, size_t setup_n, const uint64_t *net, size_t net_n,
    const uint64_t *waiting, size_t waiting_n);

/* Question 1. Every waiting copy by time, then sequence, to the front of out, which has room for every slot. */
struct GossipCopied gossip_waiting(const uint64_t *setup, size_t setup_n, const uint64_t *net, size_t net_n,
    const uint64_t *waiting, size_t waiting_n, uint64_t *out, size_t out_n);

/* Question 1. Records, oldest first, to the front of out, which has room for the log's capacity; log and tallies are then empty. */
struct GossipDrained gossip_drain(const uint64_t *setup, size_t setup_n, uint64_t *log, size_t log_n, uint64_t *out,
    size_t out_n);

/* Questions 1, 5. */
struct GossipTallied gossip_tally(const uint64_t *setup, size_t setup_n, const uint64_t *log, size_t log_n,
    uint64_t message_class);

/* Question 6. BLAKE3 of the input. */
struct GossipHashed gossip_digest(const uint8_t *input, size_t input_n);

/* A stream of the caller's own, as 8 little-endian key words and the number of words that it has given. The next 64-bit draw, low
 * word first; the count goes up by 2. From 2^62 words on a stream stands still and gives 0. No call of the network. */
struct GossipStream { uint32_t key[8]; uint64_t count; };
uint64_t gossip_next_u64(struct GossipStream *stream);

#ifdef __cplusplus
}
#endif
#endif
