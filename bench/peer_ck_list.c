/*
 * The job of `lookup list` over a ck_array, whose entries are the members. A reader copies the committed list.
 *
 * Where nothing was added since the last commit, ck_array_remove 0.7.1 takes the member out of the committed list itself, so
 * that a reader may see a `drop` before its `commit`, and a list in the middle of the change: its reports can be wrong.
 */
#include "peer_ck.h"
#include <ck_array.h>

#define MOST_MEMBERS 4096

enum { ADD, DROP, COMMIT, ADDED, DROPPED, COMMITTED, MISSING, FULL };

static struct view { uint64_t *members; size_t len; } *views[MOST_FILES];

static ck_array_t array;

static bool open_structure(void) { return ck_array_init(&array, CK_ARRAY_MODE_SPMC, &memory, 8); }

static inline const char *read_update(const char *line, struct update *u)
{
	if (begins(line, "add ", 4)) {
		u->what = ADD;
		return number(line + 4, '\n', &u->value);
	}
	if (begins(line, "drop ", 5)) {
		u->what = DROP;
		return number(line + 5, '\n', &u->value);
	}
	u->what = COMMIT;
	return begins(line, "commit\n", 7) ? line + 7 : NULL;
}

static void make_room(unsigned file, size_t lines) { views[file] = room_for(lines * sizeof *views[file]); }

static inline const char *read_query(const char *line, unsigned file, size_t i)
{
	(void)file; (void)i;
	return begins(line, "all\n", 4) ? line + 4 : NULL;
}

static inline void apply(struct update *u)
{
	unsigned before = array.n_entries;
	switch (u->what) {
	case ADD:
		if (before == MOST_MEMBERS) { u->what = FULL; return; }
		/* ck_array_put 0.7.1 answers false where it appended to an open transaction, so the count is asked. */
		ck_array_put(&array, (void *)u->value);
		if (array.n_entries != before + 1) exit(9);
		u->what = ADDED;
		return;
	case DROP:
		u->what = ck_array_remove(&array, (void *)u->value) ? DROPPED : MISSING;
		return;
	default:
		if (!ck_array_commit(&array)) exit(9);
		u->what = COMMITTED;
	}
}

static inline void answer(ck_epoch_record_t *record, unsigned file, size_t i)
{
	unsigned len;
	ck_epoch_begin(record, NULL);
	void *members = ck_array_buffer(&array, &len);
	views[file][i].members = room_for(len * sizeof(uint64_t));
	memcpy(views[file][i].members, members, len * sizeof(uint64_t));
	ck_epoch_end(record, NULL);
	views[file][i].len = len;
}

static inline void put_reply(const struct update *u)
{
	switch (u->what) {
	case ADDED: PUT_TEXT(" added"); break;
	case DROPPED: PUT_TEXT(" dropped"); break;
	case COMMITTED: PUT_TEXT(" committed"); break;
	case MISSING: PUT_TEXT(" missing"); break;
	default: PUT_TEXT(" full");
	}
}

static inline void put_answer(unsigned file, size_t i)
{
	struct view *view = &views[file][i];
	if (!view->len) { PUT_TEXT(" empty"); return; }
	PUT_TEXT(" =");
	for (size_t k = 0; k < view->len; k++) {
		PUT_TEXT(" "); put_number(view->members[k]);
		put_full_piece();
	}
}

static void put_rest(void)
{
	unsigned len;
	uint64_t *members = (uint64_t *)ck_array_buffer(&array, &len);
	for (unsigned k = 0; k < len; k++) {
		PUT_TEXT("t "); put_number(members[k]);
		end_line();
	}
}
