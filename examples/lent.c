/* A store lent from C: an infants' list is stored under set 1 and a juniors' under set 2. Among all lists the infants' is found, among the juniors'
   theirs. Then the juniors' corrected take comes in place of theirs, under the same id and set. Prints the words of the answers in hexadecimal. */
#include <inttypes.h>
#include <stdint.h>
#include <stdio.h>

void wang_index_insert(uint32_t *refs, size_t refs_len, uint32_t *postings, size_t postings_len,
                       uint32_t *stopped, size_t stopped_len, const uint32_t *hashes, size_t hashes_len,
                       uint32_t rate, uint32_t limit, uint32_t set, uint64_t answer[8]);
void wang_index_replace(uint32_t *refs, size_t refs_len, uint32_t *postings, size_t postings_len,
                        uint32_t *stopped, size_t stopped_len, uint32_t id, const uint32_t *hashes, size_t hashes_len,
                        uint32_t rate, uint32_t limit, uint64_t answer[8]);
void wang_index_query(const uint32_t *refs, size_t refs_len, const uint32_t *postings, size_t postings_len,
                      const uint32_t *stopped, size_t stopped_len, int64_t *scratch, size_t scratch_len,
                      const uint32_t *hashes, size_t hashes_len, uint32_t rate, uint32_t tolerance,
                      uint32_t min_votes, uint32_t min_score, uint32_t min_prominence, uint32_t set,
                      uint64_t answer[8]);

enum { R = 32, P = 1024, K = 256, VOTES = 512, ALL = 0, INFANTS = 1, JUNIORS = 2 };
static uint32_t refs[4 + 5 * R], postings[3 * P], stopped[K];
static int64_t scratch[6 * VOTES];
static const uint32_t rate = 0x427A0000; /* 62.5 frames a second */

static void show(const uint64_t answer[8]) {
    for (int i = 0; i < 8; i++)
        printf("%" PRIX64 "%c", answer[i], i < 7 ? ' ' : '\n');
}

static void store(const uint32_t *hashes, size_t words, uint32_t set) {
    uint64_t answer[8];
    wang_index_insert(refs, 4 + 5 * R, postings, 3 * P, stopped, K, hashes, words, rate, 100, set, answer);
    show(answer);
}

static void swap(uint32_t id, const uint32_t *hashes, size_t words) {
    uint64_t answer[8];
    wang_index_replace(refs, 4 + 5 * R, postings, 3 * P, stopped, K, id, hashes, words, rate, 100, answer);
    show(answer);
}

static void ask(const uint32_t *hashes, size_t words, uint32_t set) {
    uint64_t answer[8];
    wang_index_query(refs, 4 + 5 * R, postings, 3 * P, stopped, K, scratch, 6 * VOTES, hashes, words, rate, 0, 1,
                     0x3E800000, 0x3F000000, set, answer);
    show(answer);
}

int main(void) {
    const uint32_t infants[] = {7, 4, 9, 6}, juniors[] = {7, 4}, corrected[] = {7, 5, 9, 7}, heard[] = {7, 1, 9, 3};
    store(infants, 4, INFANTS);
    store(juniors, 2, JUNIORS);
    ask(heard, 4, ALL);
    ask(heard, 4, JUNIORS);
    swap(1, corrected, 4);
    ask(heard, 4, JUNIORS);
    return 0;
}
