/* The C interface of Nultiway, a rate limiter: link libnultiway.a (x86-64 Linux).
 *
 * Made by tests/library/interface from the sources of the crate nultiway. Changes belong there.
 *
 * A function that answers uint8_t answers 0, or the number of the first question that the call
 * fails (enum nultiway_question); then no lent word or byte has changed. No pointer may be NULL,
 * even with a length of 0, no buffer that is written may overlap another of the same call, and
 * nobody else may write a lent buffer during the call.
 * Lengths count what a buffer is of: words, doubles, bools, the bytes of an image. Longer buffers may
 * be lent.
 *
 * Values stand in words that the caller keeps and lends:
 * - a limiter: rate (bits of a double), burst, alpha (bits), floor factor (bits), cooldown, hot set
 *   size, max_tracked_keys, demand time constant, table size, whether there is a cap, the cap
 *   (bits), whether there was a tick, the last tick's time; then how many records of its tables
 *   keys, hot and shadows are in use;
 * - the peers: how many records of their tables peer_table, snapshot_keys and contested are in use;
 * - a meter (GCRA): interval, burst, whether it has a TAT, the TAT;
 * - a hot set: cooldown, the most entries, how many are in use; `entries` has room for the most;
 * - an estimator of demand: rate (bits), attempts since its last tick, whether it has its times, that
 *   of the last tick, that from which it measures, the time constant.
 * A missing part is 0. What a function tells stands at the front of `answer`, which has as many
 * words as the macro above the function says: a decision is two words, 1 where denied and the retry
 * time, the reading from which it would be allowed, both 0 where allowed; a value that may be
 * missing has a flag before it, and both are 0 where it is. Times are nanoseconds, rates a second.
 * A uint8_t that is handed in is 0 for no, any other number for yes; a bool that is lent is 0 or 1.
 *
 * A load takes up to 1 MiB of stack, a tick or a list of a limiter's keys up to 128 KiB, any other
 * call up to 64 KiB. */

#ifndef NULTIWAY_H
#define NULTIWAY_H

#include <stdbool.h>
#include <stddef.h>
#include <stdint.h>

#ifdef __cplusplus
extern "C" {
#endif

/* The version of this header, 10,000 * major + 100 * minor + patch; nultiway_version() tells that
 * of the archive. */
#define NULTIWAY_VERSION 200

/* The numbers of the questions, and what is so where one is answered. */
enum nultiway_question {
    /* the call is answered */
    NULTIWAY_ANSWERED = 0,
    /* a lent buffer is too short for the configured sizes */
    NULTIWAY_SHORT_BUFFER = 1,
    /* the lent state, or the quota, meter, estimator or hot set handed in alone, could not stand in
     * a valid image */
    NULTIWAY_INVALID = 2,
    /* a rate is not finite or not above 0 */
    NULTIWAY_RATE = 3,
    /* a burst is not 1 to 4,194,303 */
    NULTIWAY_BURST = 4,
    /* alpha is not in (0, 1], or the floor factor not in [0, 1] */
    NULTIWAY_FACTOR = 5,
    /* the hot set size is not 1 to 64 and at most max_tracked_keys, or that is above the table
     * size, or that above 4,096 */
    NULTIWAY_SIZES = 6,
    /* the cluster size is not 1 to 65,535 */
    NULTIWAY_CLUSTER_SIZE = 7,
    /* the key is not tracked and the table is full */
    NULTIWAY_TABLE_FULL = 8,
    /* a counter that the call raises would not stay within 64 bits */
    NULTIWAY_COUNTER = 9,
    /* the report has more than 64 keys */
    NULTIWAY_LONG_REPORT = 10,
    /* a demand is not finite with a clear sign bit */
    NULTIWAY_DEMAND = 11,
    /* the peer is not known and 32 are */
    NULTIWAY_PEERS_FULL = 12,
    /* the image is not valid */
    NULTIWAY_IMAGE = 13,
    /* the word to unpack has a unit code of 3 or a burst of 0 */
    NULTIWAY_WORD = 14,
    /* the window is longer than 2^62 ns */
    NULTIWAY_WINDOW = 15,
    /* the output does not fit */
    NULTIWAY_SHORT_OUTPUT = 16,
};

/* Tells what is so of a call that got this number, in words. */
static inline const char *nultiway_question_text(uint64_t number) {
    static const char *const texts[] = {
        "the call is answered",
        "a lent buffer is too short for the configured sizes",
        "the lent state, or the quota, meter, estimator or hot set handed in alone, could not "
        "stand in a valid image",
        "a rate is not finite or not above 0",
        "a burst is not 1 to 4,194,303",
        "alpha is not in (0, 1], or the floor factor not in [0, 1]",
        "the hot set size is not 1 to 64 and at most max_tracked_keys, or that is above the table "
        "size, or that above 4,096",
        "the cluster size is not 1 to 65,535",
        "the key is not tracked and the table is full",
        "a counter that the call raises would not stay within 64 bits",
        "the report has more than 64 keys",
        "a demand is not finite with a clear sign bit",
        "the peer is not known and 32 are",
        "the image is not valid",
        "the word to unpack has a unit code of 3 or a burst of 0",
        "the window is longer than 2^62 ns",
        "the output does not fit",
    };
    return number < sizeof texts / sizeof texts[0] ? texts[number] : "there is no such question";
}

/* Words of a limiter. */
#define NULTIWAY_LIMITER_WORDS 16
/* Words of the peers. */
#define NULTIWAY_PEERS_WORDS 3
/* Words of a meter. */
#define NULTIWAY_GCRA_WORDS 4
/* Words of a hot set. */
#define NULTIWAY_HOT_SET_WORDS 3
/* Words of an estimator. */
#define NULTIWAY_DEMAND_WORDS 6
/* Words of a record in the table of keys. */
#define NULTIWAY_KEY_WORDS 22
/* Words of a record in the table of hot keys, and of an entry of a hot set. */
#define NULTIWAY_HOT_WORDS 6
/* Words of a record in the table of shadows. */
#define NULTIWAY_SHADOW_WORDS 4
/* The largest size of the table of keys. */
#define NULTIWAY_MAX_KEYS 4096
/* The largest size of the hot set. */
#define NULTIWAY_MAX_HOT 64
/* Words of the table of peers. */
#define NULTIWAY_PEER_TABLE_SIZE 384
/* Words of the table of snapshot keys. */
#define NULTIWAY_SNAPSHOT_KEYS_SIZE 8192
/* Words of the table of contested keys. */
#define NULTIWAY_CONTESTED_SIZE 49152
/* The most keys of a report. */
#define NULTIWAY_MAX_DEMAND_KEYS 64
/* The most bytes of an image. */
#define NULTIWAY_LARGEST_IMAGE 1372566
/* Where the last tick's time stands in a limiter's words, 0 if there was none. */
#define NULTIWAY_LAST_TICK 12

/* Words that a limiter's tables need, and HOT_SIZE those of a hot set's entries too; a size above
 * its bound counts as that bound. */
#define NULTIWAY_KEYS_SIZE(table_size) \
    (NULTIWAY_KEY_WORDS * \
     ((size_t)(table_size) < NULTIWAY_MAX_KEYS ? (size_t)(table_size) : NULTIWAY_MAX_KEYS))
#define NULTIWAY_HOT_SIZE(hot_set_size) \
    (NULTIWAY_HOT_WORDS * \
     ((size_t)(hot_set_size) < NULTIWAY_MAX_HOT ? (size_t)(hot_set_size) : NULTIWAY_MAX_HOT))
#define NULTIWAY_SHADOWS_SIZE(table_size) \
    (NULTIWAY_SHADOW_WORDS * \
     ((size_t)(table_size) < NULTIWAY_MAX_KEYS ? (size_t)(table_size) : NULTIWAY_MAX_KEYS))

/* Bytes of the image of a limiter and peers, by their words. */
#define NULTIWAY_IMAGE_SIZE(limiter, peers) \
    (118 + 179 * (limiter)[13] + 51 * (limiter)[14] + 35 * (limiter)[15] + \
     99 * (peers)[0] + 35 * (peers)[1] + 51 * (peers)[2])

/* ---- Calls on an estimator of attempts a second that stands in lent words. */

/* Makes an estimator at rate 0 that has no times yet. */
uint8_t nultiway_demand_new(uint64_t *demand, size_t demand_len, uint64_t time_constant);

/* Makes an estimator at rate 0 with both times at the reading, so that its first tick moves the
 * rate. */
uint8_t nultiway_demand_starting_at(uint64_t *demand, size_t demand_len, uint64_t time_constant,
    uint64_t reading);

/* Counts one attempt on an estimator. */
uint8_t nultiway_demand_record_attempt(uint64_t *demand, size_t demand_len);

/* Counts attempts on an estimator. */
uint8_t nultiway_demand_record_attempts(uint64_t *demand, size_t demand_len, uint64_t attempts);

/* Moves an estimator's rate by the attempts counted since its last tick, and counts from 0
 * again. */
uint8_t nultiway_demand_tick(uint64_t *demand, size_t demand_len, uint64_t reading);

/* Tells whether an estimator has attempts that no tick has folded. */
#define NULTIWAY_DEMAND_HAS_PENDING_ANSWER 1
uint8_t nultiway_demand_has_pending(const uint64_t *demand, size_t demand_len,
    uint64_t *answer, size_t answer_len);

/* Tells the rate that an estimator's last tick left: the bits of a double. */
#define NULTIWAY_DEMAND_RATE_ANSWER 1
uint8_t nultiway_demand_rate(const uint64_t *demand, size_t demand_len,
    uint64_t *answer, size_t answer_len);

/* Tells an estimator's rate with its start at 0 taken out: the bits of a double. */
#define NULTIWAY_DEMAND_UNBIASED_RATE_ANSWER 1
uint8_t nultiway_demand_unbiased_rate(const uint64_t *demand, size_t demand_len,
    uint64_t *answer, size_t answer_len);

/* ---- Calls on a Gcra that stands in lent words. */

/* Makes a meter that has allowed nothing yet. */
uint8_t nultiway_gcra_new(uint64_t *gcra, size_t gcra_len, uint64_t interval, uint32_t burst);

/* Decides on a request by a meter. */
#define NULTIWAY_GCRA_CHECK_ANSWER 2
uint8_t nultiway_gcra_check(uint64_t *gcra, size_t gcra_len, uint64_t reading,
    uint64_t *answer, size_t answer_len);

/* Changes a meter's quota: a debt of so many slots of the old one is as many of the new one. */
uint8_t nultiway_gcra_set_quota(uint64_t *gcra, size_t gcra_len, uint64_t interval, uint32_t burst,
    uint64_t reading);

/* Tells whether a meter's TAT is later than the reading. */
#define NULTIWAY_GCRA_HAS_DEBT_ANSWER 1
uint8_t nultiway_gcra_has_debt(const uint64_t *gcra, size_t gcra_len, uint64_t reading,
    uint64_t *answer, size_t answer_len);

/* Tells whether a meter would deny a check, and the nanoseconds to wait then. */
#define NULTIWAY_GCRA_RETRY_AFTER_ANSWER 2
uint8_t nultiway_gcra_retry_after(const uint64_t *gcra, size_t gcra_len, uint64_t reading,
    uint64_t *answer, size_t answer_len);

/* ---- Functions on numbers, for the benchmarks. */

/* Tells the double nearest to a whole number, ties to even. */
double nultiway_u64_to_f64(uint64_t n);

/* Tells the whole part of a double, held within 64 bits, and 0 of a NaN. */
uint64_t nultiway_f64_to_u64(double x);

/* Tells the high half of a product of 128 bits. */
uint64_t nultiway_high_product(uint64_t a, uint64_t b);

/* Tells the weight that a rate keeps after some time, in parts of 2^52. */
uint64_t nultiway_decay_weight(uint64_t elapsed, uint64_t time_constant);

/* ---- Calls on a hot set that stands in lent words, and its entries in others. */

/* Makes a hot set that may grow to `max_size` entries and has none yet. */
uint8_t nultiway_hot_set_new(uint64_t *hot_set, size_t hot_set_len,
    const uint64_t *entries, size_t entries_len, uint64_t cooldown, uint64_t max_size);

/* Takes in a key's demand, and tells whether the key is hot then. */
#define NULTIWAY_HOT_SET_UPDATE_ANSWER 1
uint8_t nultiway_hot_set_update(uint64_t *hot_set, size_t hot_set_len,
    uint64_t *entries, size_t entries_len, uint64_t key, double demand_rate, double threshold,
    uint64_t reading, uint64_t *answer, size_t answer_len);

/* Takes in a key's demand where a peer may have the key as primary, and tells whether the key is
 * hot then. */
#define NULTIWAY_HOT_SET_UPDATE_WITH_ANSWER 1
uint8_t nultiway_hot_set_update_with(uint64_t *hot_set, size_t hot_set_len,
    uint64_t *entries, size_t entries_len, uint64_t key, double demand_rate, double threshold,
    uint64_t reading, uint8_t hot_elsewhere, uint64_t *answer, size_t answer_len);

/* Takes in the demand of each of `count` keys, the first words of records of `width` words, one
 * after the other, and tells of each whether it is hot after its own update. */
uint8_t nultiway_hot_set_update_each(uint64_t *hot_set, size_t hot_set_len,
    uint64_t *entries, size_t entries_len, const uint64_t *keys, size_t keys_len, uint64_t width,
    uint64_t count, const double *demands, size_t demands_len,
    const double *thresholds, size_t thresholds_len, const bool *elsewhere, size_t elsewhere_len,
    uint64_t reading, bool *out, size_t out_len);

/* Tells whether the set has a key. */
#define NULTIWAY_HOT_SET_IS_HOT_ANSWER 1
uint8_t nultiway_hot_set_is_hot(const uint64_t *hot_set, size_t hot_set_len,
    const uint64_t *entries, size_t entries_len, uint64_t key, uint64_t *answer, size_t answer_len);

/* Tells whether the set has a key as primary. */
#define NULTIWAY_HOT_SET_IS_PRIMARY_ANSWER 1
uint8_t nultiway_hot_set_is_primary(const uint64_t *hot_set, size_t hot_set_len,
    const uint64_t *entries, size_t entries_len, uint64_t key, uint64_t *answer, size_t answer_len);

/* Tells whether the set has a key, and when the key came in. */
#define NULTIWAY_HOT_SET_HOT_SINCE_ANSWER 2
uint8_t nultiway_hot_set_hot_since(const uint64_t *hot_set, size_t hot_set_len,
    const uint64_t *entries, size_t entries_len, uint64_t key, uint64_t *answer, size_t answer_len);

/* Tells the number of the set's entries. */
#define NULTIWAY_HOT_SET_LEN_ANSWER 1
uint8_t nultiway_hot_set_len(const uint64_t *hot_set, size_t hot_set_len,
    const uint64_t *entries, size_t entries_len, uint64_t *answer, size_t answer_len);

/* Tells whether the set has no entry. */
#define NULTIWAY_HOT_SET_IS_EMPTY_ANSWER 1
uint8_t nultiway_hot_set_is_empty(const uint64_t *hot_set, size_t hot_set_len,
    const uint64_t *entries, size_t entries_len, uint64_t *answer, size_t answer_len);

/* ---- The saved image. */

/* Writes the image of a limiter and its peers to `out`, and tells how many bytes it has. */
#define NULTIWAY_SAVE_ANSWER 1
uint8_t nultiway_save(const uint64_t *limiter, size_t limiter_len,
    const uint64_t *keys, size_t keys_len, const uint64_t *hot, size_t hot_len,
    const uint64_t *shadows, size_t shadows_len, const uint64_t *peers, size_t peers_len,
    const uint64_t *peer_table, size_t peer_table_len,
    const uint64_t *snapshot_keys, size_t snapshot_keys_len,
    const uint64_t *contested, size_t contested_len, uint8_t *out, size_t out_len,
    uint64_t *answer, size_t answer_len);

/* Makes the limiter and the peers that an image was saved of, in tables that may hold anything. */
uint8_t nultiway_load(const uint8_t *image, size_t image_len, uint64_t *limiter, size_t limiter_len,
    uint64_t *keys, size_t keys_len, uint64_t *hot, size_t hot_len,
    uint64_t *shadows, size_t shadows_len, uint64_t *peers, size_t peers_len,
    uint64_t *peer_table, size_t peer_table_len, uint64_t *snapshot_keys, size_t snapshot_keys_len,
    uint64_t *contested, size_t contested_len);

/* ---- A limiter made, its cap set, its counts and ticks. */

/* Makes a limiter with no key yet. */
uint8_t nultiway_limiter_new(uint64_t *limiter, size_t limiter_len,
    const uint64_t *keys, size_t keys_len, const uint64_t *hot, size_t hot_len,
    const uint64_t *shadows, size_t shadows_len, double rate, uint32_t burst, double alpha,
    double floor_factor, uint64_t cooldown, uint64_t hot_set_size, uint64_t max_tracked_keys,
    uint64_t demand_time_constant, uint64_t table_size);

/* Asks questions 1 and 2 of a limiter and its tables. */
uint8_t nultiway_limiter_ask(const uint64_t *limiter, size_t limiter_len,
    const uint64_t *keys, size_t keys_len, const uint64_t *hot, size_t hot_len,
    const uint64_t *shadows, size_t shadows_len);

/* Sets the cap, the greatest part of its limit that a key gets, or lifts it where `has_cap` is 0 or
 * the cap is NaN: for a new key at once, for a tracked one from the next tick on. */
uint8_t nultiway_set_cap(uint64_t *limiter, size_t limiter_len,
    const uint64_t *keys, size_t keys_len, const uint64_t *hot, size_t hot_len,
    const uint64_t *shadows, size_t shadows_len, uint8_t has_cap, double cap);

/* Adds attempts and denials of a key that were counted elsewhere, and gives it the limit, without
 * asking its meter; a key that is not tracked is made. */
uint8_t nultiway_record(uint64_t *limiter, size_t limiter_len, uint64_t *keys, size_t keys_len,
    const uint64_t *hot, size_t hot_len, const uint64_t *shadows, size_t shadows_len, uint64_t key,
    uint64_t attempts, uint64_t denials, uint64_t shadow_denials, double rate, uint32_t burst,
    uint64_t reading, uint64_t cluster_size);

/* Does the work of a period: estimators, hot set, quotas, and the keys that go. */
uint8_t nultiway_tick(uint64_t *limiter, size_t limiter_len, uint64_t *keys, size_t keys_len,
    uint64_t *hot, size_t hot_len, uint64_t *shadows, size_t shadows_len, uint64_t reading,
    uint64_t cluster_size);

/* Does the same with what the peers told: they decide a hot key's share, and which keys are hot
 * elsewhere. */
uint8_t nultiway_tick_with_shares(uint64_t *limiter, size_t limiter_len,
    uint64_t *keys, size_t keys_len, uint64_t *hot, size_t hot_len,
    uint64_t *shadows, size_t shadows_len, const uint64_t *peers, size_t peers_len,
    const uint64_t *peer_table, size_t peer_table_len,
    const uint64_t *snapshot_keys, size_t snapshot_keys_len,
    const uint64_t *contested, size_t contested_len, uint64_t reading, uint64_t cluster_size);

/* ---- Checks of keys. */

/* Decides on a request for a key under the settings' limit: a new key's quota is made of it, a
 * tracked key keeps its quota until the next tick, which goes by the limit given last, here this
 * one. */
#define NULTIWAY_CHECK_ANSWER 2
uint8_t nultiway_check(uint64_t *limiter, size_t limiter_len, uint64_t *keys, size_t keys_len,
    const uint64_t *hot, size_t hot_len, const uint64_t *shadows, size_t shadows_len, uint64_t key,
    uint64_t reading, uint64_t cluster_size, uint64_t *answer, size_t answer_len);

/* Decides on a request for a key under the limit given: a new key's quota is made of it, a tracked
 * key keeps its quota until the next tick, which goes by the limit given last. */
#define NULTIWAY_CHECK_IN_ANSWER 2
uint8_t nultiway_check_in(uint64_t *limiter, size_t limiter_len, uint64_t *keys, size_t keys_len,
    const uint64_t *hot, size_t hot_len, const uint64_t *shadows, size_t shadows_len, uint64_t key,
    double rate, uint32_t burst, uint64_t reading, uint64_t cluster_size,
    uint64_t *answer, size_t answer_len);

/* Does the same beside a shadow limit, and tells a decision, whether there is a shadow, and its
 * decision: the shadow's quota has the rate of the key's, at the ratio of the two limits' rates,
 * and the shadow limit's burst, and where `has_shadow` is 0 the key's shadow is removed. */
#define NULTIWAY_CHECK_IN_TRACED_ANSWER 5
uint8_t nultiway_check_in_traced(uint64_t *limiter, size_t limiter_len,
    uint64_t *keys, size_t keys_len, const uint64_t *hot, size_t hot_len,
    uint64_t *shadows, size_t shadows_len, uint64_t key, double rate, uint32_t burst,
    uint8_t has_shadow, double shadow_rate, uint32_t shadow_burst, uint64_t reading,
    uint64_t cluster_size, uint64_t *answer, size_t answer_len);

/* Checks `count` pairs of a key and a reading under the settings' limit, one after the other: three
 * words for each, the number of the question that it fails or 0, whether it is denied, and the
 * retry time. */
uint8_t nultiway_check_each(uint64_t *limiter, size_t limiter_len, uint64_t *keys, size_t keys_len,
    const uint64_t *hot, size_t hot_len, const uint64_t *shadows, size_t shadows_len,
    const uint64_t *list, size_t list_len, uint64_t count, uint64_t cluster_size,
    uint64_t *out, size_t out_len);

/* ---- Lists of keys, in words that the caller lends for them. */

/* Lists the hot keys, greatest demand first, and tells how many: three words for each, the key, its
 * demand's bits, and whether it is primary. */
#define NULTIWAY_HOT_DEMAND_ANSWER 1
uint8_t nultiway_hot_demand(const uint64_t *limiter, size_t limiter_len,
    const uint64_t *keys, size_t keys_len, const uint64_t *hot, size_t hot_len,
    const uint64_t *shadows, size_t shadows_len, uint64_t *out, size_t out_len,
    uint64_t *answer, size_t answer_len);

/* Lists the first `k` keys by denials a second, and tells how many: four words for each, the key
 * and the bits of its three rates. */
#define NULTIWAY_MOST_DENIED_ANSWER 1
uint8_t nultiway_most_denied(const uint64_t *limiter, size_t limiter_len,
    const uint64_t *keys, size_t keys_len, const uint64_t *hot, size_t hot_len,
    const uint64_t *shadows, size_t shadows_len, uint64_t k, uint64_t *out, size_t out_len,
    uint64_t *answer, size_t answer_len);

/* Lists the first `k` keys by shadow denials a second likewise. */
#define NULTIWAY_MOST_SHADOW_DENIED_ANSWER 1
uint8_t nultiway_most_shadow_denied(const uint64_t *limiter, size_t limiter_len,
    const uint64_t *keys, size_t keys_len, const uint64_t *hot, size_t hot_len,
    const uint64_t *shadows, size_t shadows_len, uint64_t k, uint64_t *out, size_t out_len,
    uint64_t *answer, size_t answer_len);

/* ---- What a limiter tells. */

/* Tells a new key's quota under a limit: interval and burst. */
#define NULTIWAY_NEW_KEY_QUOTA_ANSWER 2
uint8_t nultiway_new_key_quota(const uint64_t *limiter, size_t limiter_len,
    const uint64_t *keys, size_t keys_len, const uint64_t *hot, size_t hot_len,
    const uint64_t *shadows, size_t shadows_len, double rate, uint32_t burst, uint64_t cluster_size,
    uint64_t *answer, size_t answer_len);

/* Tells a new key's part of its limit: the bits of a double. */
#define NULTIWAY_NEW_KEY_FACTOR_ANSWER 1
uint8_t nultiway_new_key_factor(const uint64_t *limiter, size_t limiter_len,
    const uint64_t *keys, size_t keys_len, const uint64_t *hot, size_t hot_len,
    const uint64_t *shadows, size_t shadows_len, uint64_t cluster_size,
    uint64_t *answer, size_t answer_len);

/* Tells whether a key is tracked, and the bits of three rates a second: requests, denials, and
 * shadow denials. */
#define NULTIWAY_KEY_RATES_ANSWER 4
uint8_t nultiway_key_rates(const uint64_t *limiter, size_t limiter_len,
    const uint64_t *keys, size_t keys_len, const uint64_t *hot, size_t hot_len,
    const uint64_t *shadows, size_t shadows_len, uint64_t key, uint64_t *answer, size_t answer_len);

/* Tells whether a key is tracked, and the interval and burst of its quota. */
#define NULTIWAY_QUOTA_ANSWER 3
uint8_t nultiway_quota(const uint64_t *limiter, size_t limiter_len,
    const uint64_t *keys, size_t keys_len, const uint64_t *hot, size_t hot_len,
    const uint64_t *shadows, size_t shadows_len, uint64_t key, uint64_t *answer, size_t answer_len);

/* Tells whether a key is tracked, and its limit: the rate's bits and the burst. */
#define NULTIWAY_LIMIT_ANSWER 3
uint8_t nultiway_limit(const uint64_t *limiter, size_t limiter_len,
    const uint64_t *keys, size_t keys_len, const uint64_t *hot, size_t hot_len,
    const uint64_t *shadows, size_t shadows_len, uint64_t key, uint64_t *answer, size_t answer_len);

/* Tells the settings: the first nine words of the limiter. */
#define NULTIWAY_CONFIG_ANSWER 9
uint8_t nultiway_config(const uint64_t *limiter, size_t limiter_len,
    const uint64_t *keys, size_t keys_len, const uint64_t *hot, size_t hot_len,
    const uint64_t *shadows, size_t shadows_len, uint64_t *answer, size_t answer_len);

/* Tells whether a key is hot, and when it came into the hot set. */
#define NULTIWAY_HOT_SINCE_ANSWER 2
uint8_t nultiway_hot_since(const uint64_t *limiter, size_t limiter_len,
    const uint64_t *keys, size_t keys_len, const uint64_t *hot, size_t hot_len,
    const uint64_t *shadows, size_t shadows_len, uint64_t key, uint64_t *answer, size_t answer_len);

/* Tells whether a key is hot. */
#define NULTIWAY_IS_HOT_ANSWER 1
uint8_t nultiway_is_hot(const uint64_t *limiter, size_t limiter_len,
    const uint64_t *keys, size_t keys_len, const uint64_t *hot, size_t hot_len,
    const uint64_t *shadows, size_t shadows_len, uint64_t key, uint64_t *answer, size_t answer_len);

/* Tells whether a key is tracked. */
#define NULTIWAY_TRACKED_ANSWER 1
uint8_t nultiway_tracked(const uint64_t *limiter, size_t limiter_len,
    const uint64_t *keys, size_t keys_len, const uint64_t *hot, size_t hot_len,
    const uint64_t *shadows, size_t shadows_len, uint64_t key, uint64_t *answer, size_t answer_len);

/* Tells how many keys are hot. */
#define NULTIWAY_HOT_KEYS_ANSWER 1
uint8_t nultiway_hot_keys(const uint64_t *limiter, size_t limiter_len,
    const uint64_t *keys, size_t keys_len, const uint64_t *hot, size_t hot_len,
    const uint64_t *shadows, size_t shadows_len, uint64_t *answer, size_t answer_len);

/* Tells how many keys are tracked. */
#define NULTIWAY_TRACKED_KEYS_ANSWER 1
uint8_t nultiway_tracked_keys(const uint64_t *limiter, size_t limiter_len,
    const uint64_t *keys, size_t keys_len, const uint64_t *hot, size_t hot_len,
    const uint64_t *shadows, size_t shadows_len, uint64_t *answer, size_t answer_len);

/* ---- Calls on a quota or on `step` alone. */

/* Makes the quota of a whole number of requests a second: interval and burst. */
#define NULTIWAY_QUOTA_NEW_ANSWER 2
uint8_t nultiway_quota_new(uint32_t rate, uint32_t burst, uint64_t *answer, size_t answer_len);

/* Makes the quota of any rate, the longest interval where it is too slow or no rate: interval and
 * burst. */
#define NULTIWAY_QUOTA_PER_SECOND_ANSWER 2
uint8_t nultiway_quota_per_second(double rate, uint32_t burst, uint64_t *answer, size_t answer_len);

/* Reads the quota that a packed word holds: interval and burst. */
#define NULTIWAY_QUOTA_UNPACK_ANSWER 2
uint8_t nultiway_quota_unpack(uint64_t word, uint64_t *answer, size_t answer_len);

/* Packs a quota into one word. */
#define NULTIWAY_QUOTA_PACK_ANSWER 1
uint8_t nultiway_quota_pack(uint64_t interval, uint32_t burst, uint64_t *answer, size_t answer_len);

/* Tells the requests a second of a quota: the bits of a double. */
#define NULTIWAY_QUOTA_RATE_PER_SEC_ANSWER 1
uint8_t nultiway_quota_rate_per_sec(uint64_t interval, uint32_t burst,
    uint64_t *answer, size_t answer_len);

/* Tells the quoted ceiling: the most checks that a quota allows at readings from s to s +
 * `window`. */
#define NULTIWAY_QUOTA_CEILING_ANSWER 1
uint8_t nultiway_quota_ceiling(uint64_t interval, uint32_t burst, uint64_t window,
    uint64_t *answer, size_t answer_len);

/* Makes one attempt on a TAT, 0 for none, and a packed quota: a decision, and the TAT after it. */
#define NULTIWAY_STEP_ANSWER 3
uint8_t nultiway_step(uint64_t tat, uint64_t packed, uint64_t reading,
    uint64_t *answer, size_t answer_len);

/* ---- What the peers tell. */

/* Asks questions 1 and 2 of the peers and their tables. */
uint8_t nultiway_peers_ask(const uint64_t *peers, size_t peers_len,
    const uint64_t *peer_table, size_t peer_table_len,
    const uint64_t *snapshot_keys, size_t snapshot_keys_len,
    const uint64_t *contested, size_t contested_len);

/* Tells whether a peer said something of a key, the bits of the demand (a float), whether the key
 * is primary there, the round, and when it was heard. */
#define NULTIWAY_PEERS_GET_ANSWER 5
uint8_t nultiway_peers_get(const uint64_t *peers, size_t peers_len,
    const uint64_t *peer_table, size_t peer_table_len,
    const uint64_t *snapshot_keys, size_t snapshot_keys_len,
    const uint64_t *contested, size_t contested_len, uint64_t peer, uint64_t key,
    uint64_t *answer, size_t answer_len);

/* Tells the peers' demands for a key, added up: the bits of a double. */
#define NULTIWAY_PEERS_TOTAL_ANSWER 1
uint8_t nultiway_peers_total(const uint64_t *peers, size_t peers_len,
    const uint64_t *peer_table, size_t peer_table_len,
    const uint64_t *snapshot_keys, size_t snapshot_keys_len,
    const uint64_t *contested, size_t contested_len, uint64_t key,
    uint64_t *answer, size_t answer_len);

/* Tells whether a key is primary at a peer. */
#define NULTIWAY_PEERS_HOT_ELSEWHERE_ANSWER 1
uint8_t nultiway_peers_hot_elsewhere(const uint64_t *peers, size_t peers_len,
    const uint64_t *peer_table, size_t peer_table_len,
    const uint64_t *snapshot_keys, size_t snapshot_keys_len,
    const uint64_t *contested, size_t contested_len, uint64_t key,
    uint64_t *answer, size_t answer_len);

/* Tells the number of keys of all peers. */
#define NULTIWAY_PEERS_LEN_ANSWER 1
uint8_t nultiway_peers_len(const uint64_t *peers, size_t peers_len,
    const uint64_t *peer_table, size_t peer_table_len,
    const uint64_t *snapshot_keys, size_t snapshot_keys_len,
    const uint64_t *contested, size_t contested_len, uint64_t *answer, size_t answer_len);

/* Tells whether there is no key of any peer. */
#define NULTIWAY_PEERS_IS_EMPTY_ANSWER 1
uint8_t nultiway_peers_is_empty(const uint64_t *peers, size_t peers_len,
    const uint64_t *peer_table, size_t peer_table_len,
    const uint64_t *snapshot_keys, size_t snapshot_keys_len,
    const uint64_t *contested, size_t contested_len, uint64_t *answer, size_t answer_len);

/* Tells the peers' demands, added up, for each of `count` keys, the first words of records of
 * `width` words. */
uint8_t nultiway_peers_total_of_each(const uint64_t *peers, size_t peers_len,
    const uint64_t *peer_table, size_t peer_table_len,
    const uint64_t *snapshot_keys, size_t snapshot_keys_len,
    const uint64_t *contested, size_t contested_len, const uint64_t *keys, size_t keys_len,
    uint64_t width, uint64_t count, double *out, size_t out_len);

/* Tells of each of `count` keys, the first words of records of `width` words, whether it is primary
 * at a peer. */
uint8_t nultiway_peers_hot_elsewhere_of_each(const uint64_t *peers, size_t peers_len,
    const uint64_t *peer_table, size_t peer_table_len,
    const uint64_t *snapshot_keys, size_t snapshot_keys_len,
    const uint64_t *contested, size_t contested_len, const uint64_t *keys, size_t keys_len,
    uint64_t width, uint64_t count, bool *out, size_t out_len);

/* ---- Calls that make and change the peers. */

/* Makes the state of peers of which none is known. */
uint8_t nultiway_peers_new(uint64_t *peers, size_t peers_len,
    const uint64_t *peer_table, size_t peer_table_len,
    const uint64_t *snapshot_keys, size_t snapshot_keys_len,
    const uint64_t *contested, size_t contested_len);

/* Removes a peer's record and keys. */
uint8_t nultiway_peers_forget(uint64_t *peers, size_t peers_len,
    uint64_t *peer_table, size_t peer_table_len, uint64_t *snapshot_keys, size_t snapshot_keys_len,
    uint64_t *contested, size_t contested_len, uint64_t peer);

/* Lets a peer leave: it is removed at once where `hold` is 0, and else held for that time. */
uint8_t nultiway_peers_leave(uint64_t *peers, size_t peers_len,
    uint64_t *peer_table, size_t peer_table_len, uint64_t *snapshot_keys, size_t snapshot_keys_len,
    uint64_t *contested, size_t contested_len, uint64_t peer, uint64_t reading, uint64_t hold);

/* Removes what is `max_age` old, and peers that are held no longer. */
uint8_t nultiway_peers_expire(uint64_t *peers, size_t peers_len,
    uint64_t *peer_table, size_t peer_table_len, uint64_t *snapshot_keys, size_t snapshot_keys_len,
    uint64_t *contested, size_t contested_len, uint64_t reading, uint64_t max_age);

/* Applies a report of `count` keys that came from a peer: three words for each key, the key, the
 * bits of its demand (a float), and whether it is primary there. */
uint8_t nultiway_peers_apply(uint64_t *peers, size_t peers_len,
    uint64_t *peer_table, size_t peer_table_len, uint64_t *snapshot_keys, size_t snapshot_keys_len,
    uint64_t *contested, size_t contested_len, uint64_t from, uint64_t origin, uint32_t epoch,
    uint16_t round, const uint64_t *report, size_t report_len, uint64_t count, uint64_t reading);

/* ---- A node's share of a limit, and the rounds of reports. */

/* Tells the part of a limit, a rate a second, that falls to a node by its demand and that of all
 * others: the bits of a double. */
#define NULTIWAY_SHARE_ANSWER 1
uint8_t nultiway_share(double limit, uint64_t cluster_size, double floor_factor, double own,
    double others, uint64_t *answer, size_t answer_len);

/* Tells after how many rounds without a word a peer's snapshot is stale. */
#define NULTIWAY_STALE_AFTER_ROUNDS_ANSWER 1
uint8_t nultiway_stale_after_rounds(uint64_t cluster_size, uint64_t *answer, size_t answer_len);

/* Tells whether round `a` is 1 to 32,767 ahead of round `b`, modulo 65,536. */
bool nultiway_round_is_newer(uint16_t a, uint16_t b);

/* ---- The version. */

/* Tells the version of the archive: 10,000 * major + 100 * minor + patch. */
uint32_t nultiway_version(void);

#ifdef __cplusplus
}
#endif

#endif
