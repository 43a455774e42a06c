/*
 * Hooks of a shared engine that do not return, in each call that calls one: they end their thread, jump, throw, or
 * fork. What the call holds is given back, what it has carried out stays so, and nothing is lost. Bodies that are left,
 * aborts on the way out, and drains, which call no hook. Each failed check is printed; the last line counts all checks.
 * For tests/threads.py.
 */
#include "shared_inside.h"

/* A call in which a hook does not return */

struct stage;

struct scene {
    const char *name;
    bool is_cut;                        /* whether it is the hook `cutting`, else `ended` */
    bool pauses;                        /* whether starts wait for the cut that is due */
    void (*begins)(struct stage *it);   /* what is there before the call, or null */
    uint32_t (*call)(struct stage *it);
    void (*is_done)(struct stage *it);  /* what the call has carried out all the same */
};

struct stage {
    const struct scene *scene;
    sgt_shared *shared;
    sgt_ticket other;
    sgt_transaction own;
    sgt_reply reply;
    sgt_shared_outcome outcome;
    bool is_armed;                      /* whether the hook acts when it is called next */
    bool forks;
    enum way way;
    int reports;                        /* how often a hook was called */
    uint32_t status;
};

static void runs_outer(void *of)
{
    sgt_shared_outcome outcome = SGT_SHARED_OUTCOME;
    CHECK(sgt_shared_run(of, WRITE, 0, 0, 0, &outcome) == SGT_OK && outcome.reply.kind == SGT_COMMITTED);
}

static void acts(struct stage *it)
{
    it->reports++;
    CHECK(!is_child); /* which is in a hook already, and calls no other */
    if (!it->is_armed) return;
    it->is_armed = false;
    if (it->forks) forks_once();
    else leave_by(it->way);
    if (is_child) runs_outer(opens(0)); /* the child may use an engine of its own, in the hook too */
}

static void ended(void *context, const sgt_ended *call)
{
    struct stage *it = context;
    CHECK(call->call.kind == SGT_COMMITTED);
    if (!it->scene->is_cut) acts(it);
    else CHECK(!is_child);
}

static void cutting(void *context, sgt_engine *engine, uint64_t part)
{
    struct stage *it = context;
    CHECK(engine == &it->shared->engine && part == it->shared->part);
    if (it->scene->is_cut) acts(it);
    else CHECK(!is_child);
}

/* With a cut that is due at once. */
static void begin_stage(struct stage *it, const struct scene *scene)
{
    sgt_shared_config config = SGT_SHARED_CONFIG;
    *it = (struct stage){.scene = scene, .own = SGT_TRANSACTION, .outcome = SGT_SHARED_OUTCOME};
    config.ended = ended, config.cutting = cutting, config.context = it;
    config.keeps_ended = 1;
    config.cut_after = 1;
    config.cut_wait_ns = scene->pauses ? SGT_FOREVER - 1 : 0;
    it->shared = opens(&config);
    of_what = scene->name;
    if (scene->begins) scene->begins(it);
    it->is_armed = true, it->reports = 0;
}

/* A transaction of another thread */

static void *begins_writer(void *of)
{
    struct stage *it = of;
    it->other = begins(it->shared);
    CHECK(writes(it->shared, &it->other, FIRST) == SGT_WROTE);
    return 0;
}

static void beside_a_writer(struct stage *it)
{
    pthread_t thread;
    CHECK(pthread_create(&thread, 0, begins_writer, it) == 0 && pthread_join(thread, 0) == 0);
}

/* It has ended, and left its cut to the next start, which waits for it or not. */
static void behind_a_writer(struct stage *it)
{
    beside_a_writer(it);
    CHECK(sgt_shared_abandon(it->shared, &it->other) == SGT_OK && it->shared->plan.pauses == it->scene->pauses);
}

static void has_begun_a_try(struct stage *it)
{
    int64_t value = 0;
    CHECK(sgt_shared_try(it->shared, &it->own, 0) == SGT_OK);
    CHECK(sgt_transaction_read(&it->own, TABLE, FIRST, &value) == SGT_OK);
}

/* The calls */

static uint32_t runs(struct stage *it) { return sgt_shared_run(it->shared, WRITE, 0, 0, 0, &it->outcome); }

static uint32_t commits_other(struct stage *it) { return sgt_shared_commit(it->shared, &it->other, LONG, &it->reply); }

static uint32_t quits_other(struct stage *it) { return sgt_shared_quit(it->shared, &it->other, &it->reply); }

static uint32_t cuts(struct stage *it) { return sgt_shared_cut(it->shared, SGT_FOREVER); }

static uint32_t starts(struct stage *it) { return sgt_shared_begin(it->shared, SGT_FOREVER, &it->other, &it->reply); }

static uint32_t tries(struct stage *it) { return sgt_shared_try(it->shared, &it->own, 0); }

static uint32_t commits_try(struct stage *it) { return sgt_transaction_commit(&it->own, LONG); }

static uint32_t quits_try(struct stage *it) { return sgt_transaction_quit(&it->own); }

static uint32_t writes_first(void *context, sgt_transaction *t)
{
    (void)context;
    CHECK(sgt_transaction_write(t, TABLE, FIRST, 8) == SGT_OK);
    return SGT_BODY_COMMIT;
}

static uint32_t quits_body(void *context, sgt_transaction *t)
{
    (void)context, (void)t;
    return SGT_BODY_QUIT;
}

static uint32_t transacts(struct stage *it)
{
    return sgt_shared_transact(it->shared, writes_first, 0, 0, &it->outcome);
}

static uint32_t transacts_quit(struct stage *it)
{
    return sgt_shared_transact(it->shared, quits_body, 0, 0, &it->outcome);
}

static uint32_t transacts_alone(struct stage *it)
{
    sgt_transact_options options = SGT_TRANSACT_OPTIONS;
    options.tries = 0;
    return sgt_shared_transact(it->shared, writes_first, 0, &options, &it->outcome);
}

/* What they have carried out */

static uint64_t part_of(const sgt_shared *s) { return s->part; }

/* What is committed can be drained, whoever was told of it. */
static void is_stored(struct stage *it)
{
    sgt_ended stored = {0};
    uint64_t count = 77;
    CHECK(lives(it->shared) == 0 && sgt_shared_drain(it->shared, 0, &stored, 1, &count) == SGT_OK && count == 1);
    CHECK(stored.call.kind == SGT_COMMITTED && stored.wrote);
}

static void outcome_is_told(struct stage *it)
{
    CHECK(it->outcome.reply.kind == SGT_COMMITTED && it->outcome.tries == 1 && it->outcome.sequence == 0);
    CHECK(it->outcome.ticket.engine == it->shared->number);
    is_stored(it);
}

static void is_committed(struct stage *it)
{
    CHECK(it->reply.kind == SGT_COMMITTED);
    is_stored(it);
}

static void try_has_ended(struct stage *it)
{
    int64_t value = 0;
    CHECK(!it->own.is_live && it->own.status == SGT_OK && lives(it->shared) == 0);
    CHECK(sgt_transaction_read(&it->own, TABLE, FIRST, &value) == SGT_MISUSE);
}

static void is_aborted(struct stage *it) { CHECK(it->reply.kind == SGT_ABORTED && lives(it->shared) == 0); }

static void nothing_is_done(struct stage *it) { CHECK(lives(it->shared) == 0); }

/* A call that makes the cut for which starts wait, before it starts something. */
static void nothing_is_started(struct stage *it)
{
    CHECK(lives(it->shared) == 0 && it->outcome.tries == 0 && it->outcome.reply.kind == 0 && it->reply.kind == 0);
    CHECK(it->own.tries == 0 && !it->own.is_live);
}

static const struct scene scenes[] = {
    {"`ended` in a run", false, false, 0, runs, outcome_is_told},
    {"`ended` in a commit", false, false, beside_a_writer, commits_other, is_committed},
    {"`ended` in a commit of a try", false, false, has_begun_a_try, commits_try, try_has_ended},
    {"`ended` in a function", false, false, 0, transacts, outcome_is_told},
    {"`cutting` in a run", true, false, 0, runs, outcome_is_told},
    {"`cutting` in a commit", true, false, beside_a_writer, commits_other, is_committed},
    {"`cutting` in an abort", true, false, beside_a_writer, quits_other, is_aborted},
    {"`cutting` in a commit of a try", true, false, has_begun_a_try, commits_try, try_has_ended},
    {"`cutting` in a function", true, false, 0, transacts, outcome_is_told},
    {"`cutting` in a cut", true, false, 0, cuts, nothing_is_done},
    {"`cutting` that was left to a start", true, false, behind_a_writer, starts, nothing_is_started},
    {"`cutting` that was left to a run", true, false, behind_a_writer, runs, nothing_is_started},
    {"`cutting` that was left to a try", true, false, behind_a_writer, tries, nothing_is_started},
    {"`cutting` that was left to a function", true, false, behind_a_writer, transacts, nothing_is_started},
    {"`cutting` that was left to one alone", true, false, behind_a_writer, transacts_alone, nothing_is_started},
    {"`cutting` before a start", true, true, behind_a_writer, starts, nothing_is_started},
    {"`cutting` before a run", true, true, behind_a_writer, runs, nothing_is_started},
    {"`cutting` before a try", true, true, behind_a_writer, tries, nothing_is_started},
    {"`cutting` before a function", true, true, behind_a_writer, transacts, nothing_is_started},
    {"`cutting` before one that is to be alone", true, true, behind_a_writer, transacts_alone, nothing_is_started},
};

enum { SCENES = sizeof scenes / sizeof *scenes };

static void makes(void *of)
{
    struct stage *it = of;
    it->status = it->scene->call(it);
    ends_child(it->status);
}

/* The cut that was due is put off: until one more entry has come. */
static void is_left_by_its_hook(const struct scene *scene)
{
    for (enum way way = 0; way < WAYS; way++) {
        struct stage it;
        if (!can_leave(way)) continue;
        begin_stage(&it, scene);
        it.way = way;
        is_left(makes, &it, way);
        CHECK(it.reports == 1 && part_of(it.shared) == 0);
        holds_nothing(it.shared);
        scene->is_done(&it);
        CHECK(it.reports == 1);
        serves_and_closes(it.shared);
    }
}

/* The child's call ends at once: it makes no cut. The parent's goes on. */
static void is_forked_by_its_hook(const struct scene *scene)
{
    struct stage it;
    begin_stage(&it, scene);
    it.forks = true;
    makes(&it);
    CHECK(it.status == SGT_OK && it.reports > 0 && part_of(it.shared) > 0);
    serves_and_closes(it.shared);
}

/* Engines whose hooks call others */

/* A hook of an engine that makes a call of another one, whose hook does not return. */
struct nested {
    struct stage *inner;
    int reports;
};

static void calls_inner(void *context, const sgt_ended *call)
{
    struct nested *it = context;
    (void)call;
    if (it->reports++ == 0) it->inner->scene->call(it->inner);
}

/* Both are left, and give back what they hold. */
static void a_hook_leaves_two_engines(const struct scene *scene)
{
    for (enum way way = 0; way < WAYS; way++) {
        sgt_shared_config config = SGT_SHARED_CONFIG;
        struct stage inner;
        struct nested it = {.inner = &inner};
        if (!can_leave(way)) continue;
        begin_stage(&inner, scene);
        inner.way = way;
        config.ended = calls_inner, config.context = &it;
        sgt_shared *outer = opens(&config);
        is_left(runs_outer, outer, way);
        CHECK(it.reports == 1 && inner.reports == 1);
        holds_nothing(outer);
        holds_nothing(inner.shared);
        serves_and_closes(outer);
        serves_and_closes(inner.shared);
    }
}

/* What a hook has abandoned before is aborted. */

struct abandons {
    sgt_shared *shared;
    sgt_ticket live;
    enum way way;
    int reports;
};

static void abandons_and_leaves(void *context, const sgt_ended *call)
{
    struct abandons *it = context;
    (void)call;
    if (it->reports++ > 0) return;
    CHECK(sgt_shared_abandon(it->shared, &it->live) == SGT_OK);
    leave_by(it->way);
}

static void a_hook_leaves_what_it_has_abandoned(void)
{
    of_what = "a hook that abandons";
    for (enum way way = 0; way < WAYS; way++) {
        sgt_shared_config config = SGT_SHARED_CONFIG;
        struct abandons it = {.way = way};
        if (!can_leave(way)) continue;
        config.ended = abandons_and_leaves, config.context = &it;
        it.shared = opens(&config);
        it.live = begins(it.shared);
        is_left(runs_outer, it.shared, way);
        CHECK(it.reports == 1 && lives(it.shared) == 0);
        holds_nothing(it.shared);
        serves_and_closes(it.shared);
    }
}

/* Aborts on the way out, and drains: no hook is called */

static const struct scene quiet = {"no hook", true, false, 0, 0, 0};

/* The next call that may call a hook makes the cut. */
static void the_cut_comes_later(struct stage *it)
{
    CHECK(it->reports == 0 && part_of(it->shared) == 0);
    it->is_armed = false;
    CHECK(lives(it->shared) == 0 && it->reports == 1 && part_of(it->shared) == 1);
    holds_nothing(it->shared);
    serves_and_closes(it->shared);
}

static void an_abandoned_transaction_calls_no_hook(void)
{
    struct stage it;
    begin_stage(&it, &quiet);
    beside_a_writer(&it);
    CHECK(sgt_shared_abandon(it.shared, &it.other) == SGT_OK);
    the_cut_comes_later(&it);
}

static void an_abort_of_a_try_calls_no_hook(void)
{
    struct stage it;
    begin_stage(&it, &quiet);
    has_begun_a_try(&it);
    CHECK(quits_try(&it) == SGT_OK && !it.own.is_live && it.own.status == SGT_OK);
    the_cut_comes_later(&it);
}

static void a_function_that_aborts_calls_no_hook(void)
{
    struct stage it;
    begin_stage(&it, &quiet);
    CHECK(transacts_quit(&it) == SGT_OK);
    CHECK(it.outcome.reply.kind == SGT_ABORTED && it.outcome.reply.cause == SGT_BY_QUIT);
    the_cut_comes_later(&it);
}

/* Where each transaction is aborted by a call that calls no hook, the starts make the cuts. */
static void aborts_alone_are_cut_off(void)
{
    enum { MADE = 100 };
    struct stage it;
    begin_stage(&it, &quiet);
    it.is_armed = false;
    for (int made = 0; made < MADE; made++) {
        it.other = begins(it.shared);
        CHECK(sgt_shared_abandon(it.shared, &it.other) == SGT_OK && it.reports == made);
    }
    CHECK(part_of(it.shared) == MADE - 1);
    serves_and_closes(it.shared);
}

/* A start behind a cut whose hook does not return */

static void *cuts_and_is_left(void *of)
{
    cuts(of);
    return 0;
}

static const struct scene before_start = {"a start behind a cut", true, false, beside_a_writer, 0, 0};

static void a_start_goes_on_when_the_cut_is_left(void)
{
    struct stage it;
    pthread_t cutter;
    sgt_ticket more = {0};
    sgt_reply reply = {0};
    bool waits = false;
    begin_stage(&it, &before_start);
    it.shared->plan.after = 0; /* no cut but that of the thread */
    CHECK(pthread_create(&cutter, 0, cuts_and_is_left, &it) == 0);
    while (!waits) {
        lock(it.shared);
        waits = it.shared->desk.cutters > 0;
        unlock(it.shared);
    }
    CHECK(sgt_shared_begin(it.shared, 0, &more, &reply) == SGT_TIMED_OUT);
    CHECK(sgt_shared_abandon(it.shared, &it.other) == SGT_OK);
    CHECK(sgt_shared_begin(it.shared, SGT_FOREVER, &more, &reply) == SGT_OK);
    CHECK(it.reports == 1 && part_of(it.shared) == 0);
    pthread_join(cutter, 0);
    holds_nothing(it.shared);
    serves_and_closes(it.shared);
}

static uint32_t leaves_body(void *context, sgt_transaction *t)
{
    struct stage *it = context;
    CHECK(sgt_transaction_write(t, TABLE, FIRST, 8) == SGT_OK);
    leave_by(it->way);
    return SGT_BODY_COMMIT;
}

static void transacts_body(void *of)
{
    struct stage *it = of;
    sgt_shared_transact(it->shared, leaves_body, it, 0, &it->outcome);
}

static void a_body_that_is_left_calls_no_hook(void)
{
    for (enum way way = 0; way < WAYS; way++) {
        struct stage it;
        if (!can_leave(way)) continue;
        begin_stage(&it, &quiet);
        it.way = way;
        is_left(transacts_body, &it, way);
        CHECK(it.outcome.reply.kind == 0);
        the_cut_comes_later(&it);
    }
}

static const struct scene before_drain = {"a drain", false, false, 0, runs, 0};

/*
 * A hook does not return when a run is told, and leaves the call and the cut that is due. A drain takes the call, and
 * makes no cut.
 */
static void a_drain_calls_no_hook(void)
{
    sgt_ended stored = {0};
    uint64_t count = 77;
    struct stage it;
    begin_stage(&it, &before_drain);
    is_left(makes, &it, EXITS);
    CHECK(it.reports == 1 && part_of(it.shared) == 0);
    it.scene = &quiet, it.is_armed = true, it.reports = 0;
    CHECK(sgt_shared_drain(it.shared, 0, &stored, 1, &count) == SGT_OK && count == 1);
    CHECK(stored.call.kind == SGT_COMMITTED);
    the_cut_comes_later(&it);
}

/* A body that goes on when an access was left by `cutting` */

/* The access of which the hook is called, and that of the first try alone. */
struct again {
    struct stage *stage;
    sgt_transaction *transaction;
    bool looks; /* whether the body makes one more access afterwards */
    int tries;
};

/* It closes a cycle with the reader, which falls with its writer: so none is live, and the cut that is due is made. */
static void closes_cycle(void *of)
{
    struct again *it = of;
    int64_t value = 0;
    const uint32_t status = sgt_transaction_read(it->transaction, TABLE, SECOND_RECORD, &value);
    CHECK(status == SGT_UNDONE && !can_leave(it->stage->way));
}

static void catches(void (*call)(void *of), void *of, enum way way)
{
    if (way == JUMPS && setjmp(place) == 0) call(of);
#ifdef WITH_CPP
    if (way == THROWS) CHECK(catches_one(call, of));
#endif
}

static uint32_t swallows(void *context, sgt_transaction *t)
{
    struct again *it = context;
    int64_t value = 0;
    it->transaction = t;
    if (it->tries++ > 0) return SGT_BODY_COMMIT;
    CHECK(sgt_transaction_write(t, TABLE, FIRST, 8) == SGT_OK);
    const sgt_ticket reader = begins(it->stage->shared);
    CHECK(reads(it->stage->shared, &reader, FIRST) == SGT_LOOKED);
    CHECK(writes(it->stage->shared, &reader, SECOND_RECORD) == SGT_WROTE);
    catches(closes_cycle, it, it->stage->way);
    CHECK(it->stage->reports == 1 && !t->is_live && t->status == SGT_UNDONE);
    if (it->looks) CHECK(sgt_transaction_read(t, TABLE, FIRST, &value) == SGT_UNDONE);
    return SGT_BODY_COMMIT;
}

/* It is run again. */
static void a_body_that_goes_on_is_run_again(void)
{
    for (int i = 0; i < 2 * WAYS; i++) {
        struct stage it;
        const enum way way = (enum way)(i / 2);
        if (way == EXITS || !can_leave(way)) continue;
        begin_stage(&it, &quiet);
        of_what = "a body that goes on";
        it.way = way;
        struct again again = {.stage = &it, .looks = i % 2};
        CHECK(sgt_shared_transact(it.shared, swallows, &again, 0, &it.outcome) == SGT_OK && again.tries == 2);
        CHECK(it.outcome.reply.kind == SGT_COMMITTED && it.outcome.tries == 2);
        holds_nothing(it.shared);
        serves_and_closes(it.shared);
    }
}

/* Calls of a watch, in a call of a hook */

struct asked_in_hook {
    sgt_shared *full, *third;
    sgt_ticket live[2];
    enum way way;
    int asked;
};

static uint32_t calls_third(void *context)
{
    struct asked_in_hook *it = context;
    uint64_t count = 0;
    if (it->asked++ > 0) return 0;
    CHECK(sgt_shared_entries(it->third, &count, 0) == SGT_MISUSE);
    if (can_leave(it->way)) leave_by(it->way);
    return 1;
}

static void starts_in_full(void *context, const sgt_ended *call)
{
    struct asked_in_hook *it = context;
    sgt_ticket ticket = {0};
    sgt_reply reply = {0};
    uint64_t count = 0;
    (void)call;
    if (it->asked > 0) return;
    sgt_shared_watch(calls_third, it);
    CHECK(sgt_shared_begin(it->full, SGT_FOREVER, &ticket, &reply) == SGT_TIMED_OUT && it->asked == 1);
    sgt_shared_watch(0, 0);
    CHECK(sgt_shared_entries(it->third, &count, 0) == SGT_OK);
}

static void *begins_two(void *of)
{
    struct asked_in_hook *it = of;
    for (int i = 0; i < 2; i++) it->live[i] = begins(it->full);
    return 0;
}

/*
 * The engine of the hook waits for one call at a time, as that is what other threads look at before they wait for it.
 * The watch returns, or leaves both calls.
 */
static void a_watch_in_a_hook_makes_no_call(void)
{
    for (enum way way = 0; way <= WAYS; way++) {
        sgt_shared_config config = SGT_SHARED_CONFIG;
        struct asked_in_hook it = {.full = opens(0), .third = opens(0), .way = way};
        pthread_t thread;
        of_what = "a watch in a hook";
        config.ended = starts_in_full, config.context = &it;
        sgt_shared *outer = opens(&config);
        CHECK(pthread_create(&thread, 0, begins_two, &it) == 0 && pthread_join(thread, 0) == 0);
        if (can_leave(way)) is_left(runs_outer, outer, way);
        else runs_outer(outer);
        CHECK(it.asked == 1);
        holds_nothing(outer);
        holds_nothing(it.full);
        serves_and_closes(outer);
        serves_and_closes(it.full);
        serves_and_closes(it.third);
    }
}

int main(void)
{
    for (int i = 0; i < SCENES; i++) is_left_by_its_hook(&scenes[i]);
    for (int i = 0; i < SCENES; i++) is_forked_by_its_hook(&scenes[i]);
    for (int i = 0; i < SCENES; i++) a_hook_leaves_two_engines(&scenes[i]);
    a_hook_leaves_what_it_has_abandoned();
    an_abandoned_transaction_calls_no_hook();
    an_abort_of_a_try_calls_no_hook();
    a_function_that_aborts_calls_no_hook();
    aborts_alone_are_cut_off();
    a_start_goes_on_when_the_cut_is_left();
    a_body_that_is_left_calls_no_hook();
    a_drain_calls_no_hook();
    a_body_that_goes_on_is_run_again();
    a_watch_in_a_hook_makes_no_call();
    printf("%d checks, %d failed\n", checks, failed);
    return failed != 0;
}
