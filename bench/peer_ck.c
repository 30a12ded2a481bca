/* The job of `lookup table` over a ck_ht that holds keys and values directly. */
#include "peer_ck.h"
#include <ck_ht.h>

#define MOST_PAIRS 262144

enum { SET, PUT, DEL, TIDY, FRESH, WAS, HAS, MISSING, TIDIED, FULL };

/* A query is its key, and what was found stands beside it. */
static struct { uint64_t *key, *value; uint8_t *found; } asked[MOST_FILES];

static ck_ht_t table;

static uint64_t mix(uint64_t key)
{
	uint64_t x = key;
	x ^= x >> 33; x *= 0xff51afd7ed558ccdULL;
	x ^= x >> 33; x *= 0xc4ceb9fe1a85ec53ULL;
	return x ^ (x >> 33);
}
static void hash_key(ck_ht_hash_t *h, const void *key, size_t len, uint64_t seed)
{
	uint64_t x;
	(void)len; (void)seed;
	memcpy(&x, key, 8);
	h->value = mix(x);
}

static bool open_structure(void) { return ck_ht_init(&table, CK_HT_MODE_DIRECT, hash_key, &memory, 8, 0); }

static inline const char *key_word(const char *p, char end, uint64_t *key)
{
	p = number(p, end, key);
	if (*key == 0 || *key == UINT64_MAX) refuse();
	return p;
}

static inline const char *read_update(const char *line, struct update *u)
{
	if (begins(line, "set ", 4) || begins(line, "put ", 4)) {
		u->what = *line == 's' ? SET : PUT;
		return number(key_word(line + 4, ' ', &u->key), '\n', &u->value);
	}
	if (begins(line, "del ", 4)) {
		u->what = DEL;
		return key_word(line + 4, '\n', &u->key);
	}
	u->what = TIDY;
	return begins(line, "tidy\n", 5) ? line + 5 : NULL;
}

static void make_room(unsigned file, size_t lines)
{
	asked[file].key = room_for(lines * sizeof *asked[file].key);
	asked[file].value = room_for(lines * sizeof *asked[file].value);
	asked[file].found = room_for(lines);
}

static inline const char *read_query(const char *line, unsigned file, size_t i)
{
	return begins(line, "get ", 4) ? key_word(line + 4, '\n', &asked[file].key[i]) : NULL;
}

static inline void apply(struct update *u)
{
	ck_ht_hash_t h = { mix(u->key) };
	ck_ht_entry_t e;
	switch (u->what) {
	case TIDY:
		ck_ht_gc(&table, 0, 0);
		u->what = TIDIED;
		return;
	case DEL:
		ck_ht_entry_key_set_direct(&e, u->key);
		if (!ck_ht_remove_spmc(&table, h, &e)) { u->what = MISSING; return; }
		u->what = WAS;
		u->value = ck_ht_entry_value_direct(&e);
		return;
	case PUT:
		/* ck_ht_put_spmc 0.7.1 adds a present key again behind a tombstone, so a get asks first. */
		ck_ht_entry_key_set_direct(&e, u->key);
		if (ck_ht_get_spmc(&table, h, &e)) { u->what = HAS; u->value = ck_ht_entry_value_direct(&e); return; }
		break;
	default:
		break;
	}
	if (ck_ht_count(&table) == MOST_PAIRS) {
		ck_ht_entry_key_set_direct(&e, u->key);
		if (!ck_ht_get_spmc(&table, h, &e)) { u->what = FULL; return; }
	}
	ck_ht_entry_set_direct(&e, h, u->key, u->value);
	if (!ck_ht_set_spmc(&table, h, &e)) exit(9);
	if (ck_ht_entry_empty(&e)) { u->what = FRESH; return; }
	u->what = WAS;
	u->value = ck_ht_entry_value_direct(&e);
}

static inline void answer(ck_epoch_record_t *record, unsigned file, size_t i)
{
	ck_ht_hash_t h = { mix(asked[file].key[i]) };
	ck_ht_entry_t e;
	ck_ht_entry_key_set_direct(&e, asked[file].key[i]);
	ck_epoch_begin(record, NULL);
	asked[file].found[i] = ck_ht_get_spmc(&table, h, &e);
	ck_epoch_end(record, NULL);
	asked[file].value[i] = ck_ht_entry_value_direct(&e);
}

static inline void put_reply(const struct update *u)
{
	switch (u->what) {
	case FRESH: PUT_TEXT(" fresh"); break;
	case WAS: PUT_TEXT(" was "); put_number(u->value); break;
	case HAS: PUT_TEXT(" has "); put_number(u->value); break;
	case MISSING: PUT_TEXT(" missing"); break;
	case TIDIED: PUT_TEXT(" tidied"); break;
	default: PUT_TEXT(" full");
	}
}

static inline void put_answer(unsigned file, size_t i)
{
	PUT_TEXT(" "); put_number(asked[file].key[i]);
	if (asked[file].found[i]) { PUT_TEXT(" = "); put_number(asked[file].value[i]); } else PUT_TEXT(" absent");
}

struct pair { uint64_t key, value; };
static int by_key(const void *a, const void *b)
{
	uint64_t x = ((const struct pair *)a)->key, y = ((const struct pair *)b)->key;
	return (x > y) - (x < y);
}

static void put_rest(void)
{
	struct pair *pairs = room_for(ck_ht_count(&table) * sizeof *pairs);
	size_t n = 0;
	ck_ht_iterator_t it = CK_HT_ITERATOR_INITIALIZER;
	for (ck_ht_entry_t *e; ck_ht_next(&table, &it, &e); n++)
		pairs[n] = (struct pair){ ck_ht_entry_key_direct(e), ck_ht_entry_value_direct(e) };
	qsort(pairs, n, sizeof *pairs, by_key);
	for (size_t i = 0; i < n; i++) {
		PUT_TEXT("t "); put_number(pairs[i].key); PUT_TEXT(" = "); put_number(pairs[i].value);
		end_line();
	}
}
