/*
 * What the programs over Concurrency Kit share: the job of `lookup` as a C programmer would write it, and what the proved
 * program is compared to.
 *
 *   PEER [--workers N] UPDATES QUERY..
 *
 * One thread makes the updates. N threads take query files from a ck_ring and answer each query in a ck_epoch section of its
 * own. `wait` and `hold` lines are kept. The report goes to standard output, as lookup's.
 *
 * They are yardsticks, not a second lookup: keys have 64 bits; a line that isn't taken ends them with status 4 and no word
 * of where it stands; lines that would wait for each other do; no limit on files is asked, and no memory given back.
 */
#include <ck_epoch.h>
#include <ck_malloc.h>
#include <ck_ring.h>
#include <fcntl.h>
#include <pthread.h>
#include <sched.h>
#include <stdbool.h>
#include <stdint.h>
#include <stdlib.h>
#include <string.h>
#include <sys/stat.h>
#include <unistd.h>

#define MOST_FILES 64
#define PIECE 65536
#define LONGEST_LINE 128

/* An update, whose reply takes its place: no second list is made. */
struct update { uint64_t key, value; uint32_t what; };

/* What the file that includes this one says of its structure. The first two read a line and return what follows it, or NULL. */
static inline const char *read_update(const char *line, struct update *u);
static inline const char *read_query(const char *line, unsigned file, size_t i);
static void make_room(unsigned file, size_t lines);
static bool open_structure(void);
static inline void apply(struct update *u);
static inline void answer(ck_epoch_record_t *record, unsigned file, size_t i);
static inline void put_reply(const struct update *u);
static inline void put_answer(unsigned file, size_t i);
static void put_rest(void);

/* A `wait` or `hold` line: how many updates or queries stand before it, and what it waits for. */
struct bar { uint32_t before, file; uint64_t count; };
struct bars { struct bar *at; size_t len, room; };

struct queries { size_t len; struct bars waits; };

static struct update *updates;
static size_t update_count;
static struct bars holds;
static struct queries files[MOST_FILES];
static unsigned file_count, worker_count = 4;

static ck_epoch_t epoch;
static ck_ring_t ring;
static ck_ring_buffer_t ring_items[2 * MOST_FILES];

/* Words that threads share lie on cache lines of their own. */
struct word { uint64_t n; char unused[56]; } __attribute__((aligned(64)));
static struct word applied, answered[MOST_FILES];

static void *room_for(size_t bytes)
{
	void *at = malloc(bytes ? bytes : 1);
	if (!at) exit(9);
	return at;
}

/* ---------------------------------------------------------------- memory of ck: what readers may hold is freed by the epochs */

static ck_epoch_record_t writer_record;
struct block { ck_epoch_entry_t entry; };
static void free_block(ck_epoch_entry_t *entry) { free(entry); }
static void *ck_take(size_t bytes)
{
	struct block *b = malloc(sizeof *b + bytes);
	return b ? b + 1 : NULL;
}
static void ck_give(void *at, size_t bytes, bool deferred)
{
	(void)bytes;
	if (!at) return;
	struct block *b = (struct block *)at - 1;
	if (!deferred) { free(b); return; }
	ck_epoch_call(&writer_record, &b->entry, free_block);
	ck_epoch_poll(&writer_record);
}
static void *ck_resize(void *at, size_t old, size_t bytes, bool deferred)
{
	void *new = ck_take(bytes);
	if (!new) return NULL;
	if (at) memcpy(new, at, old < bytes ? old : bytes);
	ck_give(at, old, deferred);
	return new;
}
static struct ck_malloc memory = { .malloc = ck_take, .free = ck_give, .realloc = ck_resize };

/* ---------------------------------------------------------------- reading */

static void refuse(void) { exit(4); }

/* A file's bytes with a line feed at their end, which stops every reader. */
static char *fetch(const char *name, size_t *len)
{
	int fd = open(name, O_RDONLY);
	struct stat st;
	if (fd < 0 || fstat(fd, &st)) exit(3);
	char *text = room_for(st.st_size + 16);
	size_t n = 0;
	for (ssize_t got; n < (size_t)st.st_size && (got = read(fd, text + n, st.st_size - n)) > 0; n += got);
	close(fd);
	if (n && text[n - 1] != '\n') text[n++] = '\n';
	memset(text + n, '\n', 8);
	*len = n;
	return text;
}

static size_t count_lines(const char *text, size_t len)
{
	size_t lines = 0;
	for (size_t i = 0; i < len; i++) lines += text[i] == '\n';
	return lines;
}

/* The number before a byte, in its one spelling. */
static inline const char *number(const char *p, char end, uint64_t *n)
{
	const char *first = p;
	uint64_t v = 0;
	for (unsigned d; (d = (unsigned char)*p - '0') < 10; p++)
		if (__builtin_mul_overflow(v, 10, &v) || __builtin_add_overflow(v, d, &v)) refuse();
	if (p == first || (*first == '0' && p - first > 1) || *p != end) refuse();
	*n = v;
	return p + 1;
}

static void add_bar(struct bars *b, struct bar bar)
{
	if (b->len == b->room) {
		b->room = b->room ? 2 * b->room : 16;
		b->at = realloc(b->at, b->room * sizeof bar);
		if (!b->at) exit(9);
	}
	b->at[b->len++] = bar;
}

static inline bool begins(const char *p, const char *word, size_t len) { return !memcmp(p, word, len); }

static const char *read_hold(const char *line, size_t before)
{
	if (!begins(line, "hold ", 5)) refuse();
	uint64_t file;
	struct bar hold = { .before = before };
	const char *p = number(number(line + 5, ' ', &file), '\n', &hold.count);
	if (file < 1 || file > file_count) refuse();
	hold.file = file;
	add_bar(&holds, hold);
	return p;
}

static const char *read_wait(const char *line, size_t before, struct bars *waits)
{
	if (!begins(line, "wait ", 5)) refuse();
	struct bar wait = { .before = before };
	const char *p = number(line + 5, '\n', &wait.count);
	add_bar(waits, wait);
	return p;
}

static void read_updates(const char *name)
{
	size_t len;
	const char *p = fetch(name, &len), *end = p + len;
	updates = room_for(count_lines(p, len) * sizeof *updates);
	while (p < end) {
		if (*p == '\n') { p++; continue; }
		if (*p == '#') { p = (const char *)memchr(p, '\n', end - p) + 1; continue; }
		struct update u = { 0, 0, 0 };
		const char *next = read_update(p, &u);
		if (!next) { p = read_hold(p, update_count); continue; }
		updates[update_count++] = u;
		p = next;
	}
}

static void read_queries(const char *name, unsigned file)
{
	size_t len, n = 0;
	const char *p = fetch(name, &len), *end = p + len;
	make_room(file, count_lines(p, len));
	while (p < end) {
		if (*p == '\n') { p++; continue; }
		if (*p == '#') { p = (const char *)memchr(p, '\n', end - p) + 1; continue; }
		const char *next = read_query(p, file, n);
		if (!next) { p = read_wait(p, n, &files[file].waits); continue; }
		n++;
		p = next;
	}
	files[file].len = n;
}

static void check_ranges(void)
{
	for (size_t i = 0; i < holds.len; i++)
		if (holds.at[i].count > files[holds.at[i].file - 1].len) refuse();
	for (unsigned f = 0; f < file_count; f++)
		for (size_t i = 0; i < files[f].waits.len; i++)
			if (files[f].waits.at[i].count > update_count) refuse();
}

/* ---------------------------------------------------------------- running */

/* Waits until the word has reached a count, with pauses that grow. */
static void reach(const uint64_t *word, uint64_t count)
{
	for (unsigned round = 0; __atomic_load_n(word, __ATOMIC_ACQUIRE) < count; round++)
		if (round < 7) for (unsigned i = 0; i < 1u << round; i++) ck_pr_stall();
		else sched_yield();
}

static void make_updates(void)
{
	size_t hold = 0;
	for (size_t i = 0; i < update_count; i++) {
		for (; hold < holds.len && holds.at[hold].before <= i; hold++)
			reach(&answered[holds.at[hold].file - 1].n, holds.at[hold].count);
		apply(&updates[i]);
		__atomic_store_n(&applied.n, i + 1, __ATOMIC_RELEASE);
	}
}

static void answer_file(ck_epoch_record_t *record, unsigned f)
{
	struct queries *q = &files[f];
	size_t wait = 0;
	for (size_t i = 0; i < q->len; i++) {
		for (; wait < q->waits.len && q->waits.at[wait].before <= i; wait++) reach(&applied.n, q->waits.at[wait].count);
		answer(record, f, i);
		__atomic_store_n(&answered[f].n, i + 1, __ATOMIC_RELEASE);
	}
}

static void *work(void *at)
{
	void *file;
	while (ck_ring_dequeue_spmc(&ring, ring_items, &file)) answer_file(at, (unsigned)(uintptr_t)file - 1);
	return NULL;
}

/* ---------------------------------------------------------------- the report */

static char out[PIECE + LONGEST_LINE], *out_at = out;

static void put_out(void)
{
	for (char *p = out; p < out_at;) {
		ssize_t n = write(1, p, out_at - p);
		if (n <= 0) exit(7);
		p += n;
	}
	out_at = out;
}

static inline void put_text(const char *text, size_t len) { memcpy(out_at, text, len); out_at += len; }
#define PUT_TEXT(text) put_text(text, sizeof text - 1)

static inline void put_number(uint64_t n)
{
	char digits[20], *p = digits + 20;
	do *--p = '0' + n % 10; while (n /= 10);
	put_text(p, digits + 20 - p);
}

/* At the end of a line, and within one that is longer than a piece. */
static inline void put_full_piece(void) { if (out_at >= out + PIECE) put_out(); }
static inline void end_line(void) { *out_at++ = '\n'; put_full_piece(); }

static void put_report(void)
{
	for (size_t i = 0; i < update_count; i++) {
		PUT_TEXT("u "); put_number(i + 1); put_reply(&updates[i]);
		end_line();
	}
	for (unsigned f = 0; f < file_count; f++)
		for (size_t i = 0; i < files[f].len; i++) {
			PUT_TEXT("q "); put_number(f + 1); PUT_TEXT(" "); put_number(i + 1); put_answer(f, i);
			end_line();
		}
	put_rest();
	PUT_TEXT("end\n");
	put_out();
}

int main(int argc, char **argv)
{
	int first = 1;
	if (argc > 2 && !strcmp(argv[1], "--workers")) { worker_count = atoi(argv[2]); first = 3; }
	if (argc < first + 2 || argc > first + 1 + MOST_FILES || worker_count < 1) return 2;
	file_count = argc - first - 1;
	read_updates(argv[first]);
	for (unsigned f = 0; f < file_count; f++) read_queries(argv[first + 1 + f], f);
	check_ranges();

	ck_epoch_init(&epoch);
	ck_epoch_register(&epoch, &writer_record, NULL);
	if (!open_structure()) return 9;
	ck_ring_init(&ring, 2 * MOST_FILES);
	for (uintptr_t f = 1; f <= file_count; f++) ck_ring_enqueue_spmc(&ring, ring_items, (void *)f);
	pthread_t threads[worker_count];
	ck_epoch_record_t *records = aligned_alloc(CK_MD_CACHELINE, worker_count * sizeof *records);
	for (unsigned w = 0; w < worker_count; w++) {
		ck_epoch_register(&epoch, &records[w], NULL);
		if (pthread_create(&threads[w], NULL, work, &records[w])) return 9;
	}
	make_updates();
	for (unsigned w = 0; w < worker_count; w++) pthread_join(threads[w], NULL);
	put_report();
	return 0;
}
