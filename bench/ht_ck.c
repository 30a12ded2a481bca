/*
 * The cases of ht.md over Concurrency Kit's ck_ht in direct mode, with a section of ck_epoch for each look. Keys have 64 bits.
 *
 *   gcc -O3 -pthread -o ht_ck ht_ck.c -lck
 */
#include <ck_epoch.h>
#include <ck_ht.h>
#include <pthread.h>
#include <stdbool.h>
#include <stdint.h>
#include <stdio.h>
#include <stdlib.h>
#include <string.h>
#include <time.h>

#define PICKS 65536
#define UPDATES 1000000
#define MOST_READERS 3

enum work { NOTHING, FILL, STAND, CHURN };

static ck_ht_t table;
static ck_epoch_t epoch;
static ck_epoch_record_t writer_record;
static struct { ck_epoch_record_t record; } __attribute__((aligned(128))) readers[MOST_READERS];
static struct { uint64_t n; } __attribute__((aligned(128))) applied;

static uint64_t mix(uint64_t key)
{
	uint64_t x = key;
	x ^= x >> 33; x *= 0xff51afd7ed558ccdULL;
	x ^= x >> 33; x *= 0xc4ceb9fe1a85ec53ULL;
	return x ^ (x >> 33);
}
static void hash_key(ck_ht_hash_t *h, const void *key, size_t len, uint64_t seed)
{
	uint64_t x;
	(void)len;
	memcpy(&x, key, 8);
	h->value = mix(x ^ seed);
}
static uint64_t now(void)
{
	struct timespec t;
	clock_gettime(CLOCK_MONOTONIC, &t);
	return (uint64_t)t.tv_sec * 1000000000 + t.tv_nsec;
}

/* What readers may still look at is freed by the epochs. */
struct block { ck_epoch_entry_t entry; };
static void free_block(ck_epoch_entry_t *entry) { free(entry); }
static void *take(size_t bytes)
{
	struct block *b = malloc(sizeof *b + bytes);
	return b ? b + 1 : NULL;
}
static void give(void *at, size_t bytes, bool deferred)
{
	(void)bytes;
	if (!at) return;
	struct block *b = (struct block *)at - 1;
	if (!deferred) { free(b); return; }
	ck_epoch_call(&writer_record, &b->entry, free_block);
	ck_epoch_poll(&writer_record);
}
static struct ck_malloc memory = { .malloc = take, .free = give };

static void set(uint64_t key, uint64_t value)
{
	ck_ht_hash_t h = { mix(key ^ 7) };
	ck_ht_entry_t e;
	ck_ht_entry_set_direct(&e, h, key, value);
	if (!ck_ht_set_spmc(&table, h, &e)) abort();
}
static void discard(uint64_t key)
{
	ck_ht_hash_t h = { mix(key ^ 7) };
	ck_ht_entry_t e;
	ck_ht_entry_key_set_direct(&e, key);
	ck_ht_remove_spmc(&table, h, &e);
}

struct reader { pthread_t thread; int number; const uint64_t *keys; uint64_t rounds, ns, looks, found; };

static void *read_keys(void *at)
{
	struct reader *r = at;
	uint64_t start = now(), looks = 0, found = 0;
	for (uint64_t i = 0; i < 1024 * r->rounds; i++) {
		if (i % 1024 == 0 && __atomic_load_n(&applied.n, __ATOMIC_SEQ_CST) >= 1) break;
		uint64_t key = r->keys[i % PICKS];
		ck_ht_hash_t h = { mix(key ^ 7) };
		ck_ht_entry_t e;
		ck_ht_entry_key_set_direct(&e, key);
		ck_epoch_begin(&readers[r->number].record, NULL);
		found += ck_ht_get_spmc(&table, h, &e);
		ck_epoch_end(&readers[r->number].record, NULL);
		looks++;
	}
	r->ns = now() - start;
	r->looks = looks;
	r->found = found;
	return NULL;
}

static void write_keys(enum work work, const uint64_t *keys, uint64_t count)
{
	for (uint64_t i = 0; i < count; i++) {
		if (work == CHURN) discard(keys[i]);
		set(keys[i], i);
	}
}

static void tell(const char *name, const uint64_t *keys, uint64_t count, enum work work, int n, const uint64_t *looked)
{
	struct reader r[MOST_READERS];
	uint64_t *again = malloc(8 * UPDATES), ns = 0, updates = 0, looks = 0, look_ns = 0, found = 0;
	for (uint64_t i = 0; i < UPDATES; i++) again[i] = keys[mix(i + 7) % count];
	if (!ck_ht_init(&table, CK_HT_MODE_DIRECT, hash_key, &memory, 8, 7)) abort();
	applied.n = 0;
	if (work != FILL) write_keys(FILL, keys, count);
	for (int i = 0; i < n; i++) {
		r[i] = (struct reader){ .number = i, .keys = looked, .rounds = work == NOTHING ? 1024 : 1 << 24 };
		pthread_create(&r[i].thread, NULL, read_keys, &r[i]);
	}
	if (work != NOTHING) {
		uint64_t start = now();
		write_keys(work, work == FILL ? keys : again, work == FILL ? count : UPDATES);
		ns = now() - start;
		updates = work == FILL ? count : work == STAND ? UPDATES : 2 * UPDATES;
		__atomic_store_n(&applied.n, 1, __ATOMIC_SEQ_CST);
	}
	for (int i = 0; i < n; i++) {
		pthread_join(r[i].thread, NULL);
		looks += r[i].looks; look_ns += r[i].ns; found += r[i].found;
	}
	printf("%s %lu keys %d readers: %lu ns an update, %lu ns a look (%s)\n", name, (unsigned long)count, n,
		(unsigned long)(updates ? ns / updates : 0), (unsigned long)(looks ? look_ns / looks : 0), found ? "true" : "false");
	fflush(stdout);
	ck_ht_destroy(&table);
	free(again);
}

static void tell_all(uint64_t count)
{
	uint64_t *keys = malloc(8 * count), *hit = malloc(8 * PICKS), *miss = malloc(8 * PICKS);
	/* keys are odd, and what is looked for and not there is even; none is ck_ht's word for an empty slot or a tombstone */
	for (uint64_t i = 0; i < count; i++) keys[i] = mix(i + 1) / 2 * 2 + 1;
	for (uint64_t i = 0; i < PICKS; i++) {
		uint64_t at = mix(i + 7) % count;
		hit[i] = keys[at]; miss[i] = mix(at + 1) / 2 * 2;
	}
	for (int n = 1; n <= 3; n += 2) {
		tell("hit", keys, count, NOTHING, n, hit);
		tell("miss", keys, count, NOTHING, n, miss);
	}
	for (int n = 0; n <= 3; n += n ? 2 : 1) {
		tell("fill", keys, count, FILL, n, hit);
		tell("stand", keys, count, STAND, n, hit);
		tell("churn", keys, count, CHURN, n, hit);
	}
	free(keys); free(hit); free(miss);
}

int main(void)
{
	ck_epoch_init(&epoch);
	ck_epoch_register(&epoch, &writer_record, NULL);
	for (int i = 0; i < MOST_READERS; i++) ck_epoch_register(&epoch, &readers[i].record, NULL);
	tell_all(50000);
	tell_all(262144);
	return 0;
}
