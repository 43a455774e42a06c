/*
 * Calls of a shared engine that rest, alone, and are asked meanwhile whether they are interrupted: by a watch that
 * itself ends what the call waits for, that is held up while another thread ends it, that says so, that does not
 * return, or that forks. Each failed check is printed; the last line counts all checks. For tests/threads.py.
 *
 * No check depends on how soon a thread goes on. A call that is not woken ends at its deadline, and may do its work
 * even then: but until then it is asked ten times a second.
 */
#include "shared_inside.h"

enum { MOST_ASKED = 5 * LONG_SECONDS };

/* `rest` and `announce` alone */

/* A thread that rests for an event, and what its watch does when it is asked first. */
struct resting {
    sgt_shared *shared;
    void (*acts)(struct resting *it);
    int asked;
};

static void announces(struct resting *it)
{
    lock(it->shared);
    announce(&it->shared->lock, &it->shared->changed);
    unlock(it->shared);
}

static void *announces_elsewhere(void *of)
{
    announces(of);
    return 0;
}

static void is_held_up(struct resting *it)
{
    pthread_t thread;
    CHECK(pthread_create(&thread, 0, announces_elsewhere, it) == 0 && pthread_join(thread, 0) == 0);
}

static uint32_t acts_first(void *context)
{
    struct resting *it = context;
    if (it->asked++ == 0) it->acts(it);
    return 0;
}

/* An announcement that comes while the only thread that rests is asked has it go on, whoever makes it. */
static void an_announcement_is_never_lost(void)
{
    static void (*const actions[])(struct resting *) = {announces, is_held_up};
    for (int i = 0; i < 2; i++) {
        struct resting it = {.shared = opens(0), .acts = actions[i]};
        struct deadline until = deadline_in(LONG);
        sgt_shared_watch(acts_first, &it);
        lock(it.shared);
        CHECK(rest(it.shared, &it.shared->changed, &until) && it.asked == 1 && !until.is_over);
        unlock(it.shared);
        sgt_shared_watch(0, 0);
        serves_and_closes(it.shared);
    }
}

/* An announcement wakes those who rest then, and nobody who rests later. */
static void an_announcement_wakes_nobody_later(void)
{
    sgt_shared *s = opens(0);
    struct deadline until = deadline_in(SECOND / 100);
    lock(s);
    announce(&s->lock, &s->changed);
    announce(&s->lock, &s->changed);
    const uint64_t count = s->changed.count;
    while (rest(s, &s->changed, &until)) CHECK(s->changed.count == count); /* a system may wake for nothing */
    unlock(s);
    serves_and_closes(s);
}

enum { RESTERS = 4, RESTS = 3000 };

/* Threads that rest in turns, for an event that the others announce. All that is counted of them is counted out. */
static void *rests_and_announces(void *of)
{
    sgt_shared *s = of;
    for (int made = 0; made < RESTS; made++) {
        struct deadline until = deadline_in(made % 3 == 0 ? 1000 : SECOND / 1000);
        lock(s);
        announce(&s->lock, &s->changed);
        rest(s, &s->changed, &until);
        if (made % 2) announce(&s->lock, &s->changed);
        unlock(s);
    }
    return 0;
}

static void all_that_rest_are_counted_out(void)
{
    sgt_shared *s = opens(0);
    pthread_t threads[RESTERS];
    for (int i = 0; i < RESTERS; i++) CHECK(pthread_create(&threads[i], 0, rests_and_announces, s) == 0);
    for (int i = 0; i < RESTERS; i++) pthread_join(threads[i], 0);
    serves_and_closes(s);
}

/* The calls that rest */

struct stage;

/* A call that rests, and how what it waits for ends. */
struct scene {
    const char *name;
    void (*begins)(struct stage *it);   /* makes what it waits for */
    uint32_t (*call)(struct stage *it);
    void (*ends)(struct stage *it);     /* ends that */
    uint32_t late;                      /* the status of the call if it is interrupted */
};

struct stage {
    const struct scene *scene;
    sgt_shared *shared;
    sgt_ticket others[2], mine;
    sgt_transaction own;
    pthread_t helper;
    bool has_helper;
    atomic_bool is_ready, may_go_on; /* of the helper */
    atomic_bool is_held, lets_go;    /* of a thread that holds the lock */
    void (*acts)(struct stage *it);  /* what the watch does when it is asked first */
    enum way way;
    int64_t wait_ns;                 /* the deadline of the call */
    int asked, bodies;
    bool is_interrupted, has_ended;
    uint32_t status;
};

/* Transactions of another thread */

static void *begins_other(void *of)
{
    struct stage *it = of;
    it->others[0] = begins(it->shared);
    return 0;
}

static void *begins_others(void *of)
{
    struct stage *it = of;
    for (int i = 0; i < 2; i++) it->others[i] = begins(it->shared);
    return 0;
}

static void *begins_writer(void *of)
{
    struct stage *it = of;
    begins_other(of);
    CHECK(writes(it->shared, &it->others[0], FIRST) == SGT_WROTE);
    return 0;
}

static void elsewhere(struct stage *it, void *(*function)(void *of))
{
    pthread_t thread;
    CHECK(pthread_create(&thread, 0, function, it) == 0 && pthread_join(thread, 0) == 0);
}

static void beside_one(struct stage *it) { elsewhere(it, begins_other); }

static void beside_two(struct stage *it) { elsewhere(it, begins_others); }

static void beside_a_writer(struct stage *it) { elsewhere(it, begins_writer); }

static void the_other_quits(struct stage *it) { quits(it->shared, &it->others[0]); }

static void the_other_commits(struct stage *it) { commits(it->shared, &it->others[0]); }

/* It ends the transaction, and leaves the cut that is due to another call. */
static void the_other_is_abandoned(struct stage *it)
{
    CHECK(sgt_shared_abandon(it->shared, &it->others[0]) == SGT_OK);
}

static void a_run_ends(struct stage *it)
{
    sgt_shared_outcome outcome = SGT_SHARED_OUTCOME;
    CHECK(sgt_shared_run(it->shared, WRITE, 0, 0, 0, &outcome) == SGT_OK);
}

/* Single calls */

static void has_read(struct stage *it)
{
    beside_a_writer(it);
    it->mine = begins(it->shared);
    CHECK(reads(it->shared, &it->mine, FIRST) == SGT_LOOKED);
}

static uint32_t commits_mine(struct stage *it)
{
    sgt_reply reply = {0};
    const uint32_t status = sgt_shared_commit(it->shared, &it->mine, it->wait_ns, &reply);
    CHECK(status != SGT_OK || reply.kind == SGT_COMMITTED);
    return status;
}

static uint32_t starts(struct stage *it)
{
    sgt_reply reply = {0};
    const uint32_t status = sgt_shared_begin(it->shared, it->wait_ns, &it->mine, &reply);
    CHECK(status != SGT_OK || reply.kind == SGT_STARTED);
    return status;
}

static uint32_t runs(struct stage *it)
{
    sgt_shared_outcome outcome = SGT_SHARED_OUTCOME;
    sgt_run_options options = SGT_RUN_OPTIONS;
    options.wait_ns = it->wait_ns;
    const uint32_t status = sgt_shared_run(it->shared, READ, 0, 0, &options, &outcome);
    CHECK(status != SGT_OK || outcome.reply.kind == SGT_COMMITTED);
    return status;
}

static uint32_t cuts(struct stage *it) { return sgt_shared_cut(it->shared, it->wait_ns); }

static uint32_t drains(struct stage *it)
{
    sgt_ended ended = {0};
    uint64_t count = 77;
    const uint32_t status = sgt_shared_drain(it->shared, it->wait_ns, &ended, 1, &count);
    CHECK(status != SGT_OK || count == !it->is_interrupted);
    return status;
}

/* Transaction functions */

static uint32_t does_nothing(void *context, sgt_transaction *t)
{
    (void)context, (void)t;
    return SGT_BODY_COMMIT;
}

static uint32_t reads_first(void *context, sgt_transaction *t)
{
    int64_t value = 0;
    (void)context;
    CHECK(sgt_transaction_read(t, TABLE, FIRST, &value) == SGT_OK);
    return SGT_BODY_COMMIT;
}

static void *other_writes_both(void *of)
{
    struct stage *it = of;
    CHECK(writes(it->shared, &it->others[0], FIRST) == SGT_WROTE);
    CHECK(writes(it->shared, &it->others[0], SECOND_RECORD) == SGT_WROTE);
    return 0;
}

/* The first try closes a cycle with the other transaction, which stays live. */
static void closes_cycle(struct stage *it, sgt_transaction *t)
{
    int64_t value = 0;
    CHECK(sgt_transaction_read(t, TABLE, FIRST, &value) == SGT_OK);
    elsewhere(it, other_writes_both);
    CHECK(sgt_transaction_read(t, TABLE, SECOND_RECORD, &value) == SGT_UNDONE && lives(it->shared) == 1);
}

static uint32_t closes_cycle_first(void *context, sgt_transaction *t)
{
    struct stage *it = context;
    if (it->bodies++ == 0) closes_cycle(it, t);
    return SGT_BODY_COMMIT;
}

static uint32_t transacts(struct stage *it, sgt_body body, uint32_t tries)
{
    sgt_shared_outcome outcome = SGT_SHARED_OUTCOME;
    sgt_transact_options options = SGT_TRANSACT_OPTIONS;
    options.wait_ns = it->wait_ns;
    options.tries = tries;
    const uint32_t status = sgt_shared_transact(it->shared, body, it, &options, &outcome);
    CHECK(status != SGT_OK || outcome.reply.kind == SGT_COMMITTED);
    return status;
}

static uint32_t transacts_reader(struct stage *it) { return transacts(it, reads_first, 8); }

static uint32_t transacts_again(struct stage *it) { return transacts(it, closes_cycle_first, 8); }

static uint32_t transacts_alone(struct stage *it) { return transacts(it, does_nothing, 0); }

static void has_read_in_try(struct stage *it)
{
    beside_a_writer(it);
    CHECK(sgt_shared_try(it->shared, &it->own, 0) == SGT_OK);
    reads_first(it, &it->own);
}

static uint32_t commits_try(struct stage *it) { return sgt_transaction_commit(&it->own, it->wait_ns); }

static void has_closed_cycle(struct stage *it)
{
    beside_one(it);
    CHECK(sgt_shared_try(it->shared, &it->own, 0) == SGT_OK);
    closes_cycle(it, &it->own);
}

static uint32_t tries(struct stage *it)
{
    sgt_transact_options options = SGT_TRANSACT_OPTIONS;
    options.wait_ns = it->wait_ns;
    return sgt_shared_try(it->shared, &it->own, &options);
}

/* Beside a helper: a thread whose try is made alone, or that waits for a cut and is asked, too */

static uint32_t waits_in_body(void *context, sgt_transaction *t)
{
    struct stage *it = context;
    (void)t;
    it->is_ready = true;
    while (!it->may_go_on) sched_yield();
    return SGT_BODY_COMMIT;
}

static void *is_alone(void *of)
{
    struct stage *it = of;
    CHECK(transacts(it, waits_in_body, 0) == SGT_OK);
    return 0;
}

static uint32_t waits_when_asked(void *context)
{
    struct stage *it = context;
    it->is_ready = true;
    while (!it->may_go_on) sched_yield();
    return 0;
}

static void *cuts_watched(void *of)
{
    struct stage *it = of;
    sgt_shared_watch(waits_when_asked, it);
    CHECK(sgt_shared_cut(it->shared, LONG) == SGT_OK);
    return 0;
}

static void with_helper(struct stage *it, void *(*function)(void *of))
{
    it->has_helper = true;
    CHECK(pthread_create(&it->helper, 0, function, it) == 0);
    while (!it->is_ready) sched_yield();
}

static void behind_one_alone(struct stage *it) { with_helper(it, is_alone); }

static void behind_a_cut(struct stage *it)
{
    beside_one(it);
    with_helper(it, cuts_watched);
}

static void the_helper_goes_on(struct stage *it) { it->may_go_on = true; }

/* Both threads are in questions when the other transaction ends. */
static void the_other_quits_while_both_are_asked(struct stage *it)
{
    the_other_quits(it);
    the_helper_goes_on(it);
}

static const struct scene scenes[] = {
    {"a commit", has_read, commits_mine, the_other_commits, SGT_TIMED_OUT},
    {"a start in a full engine", beside_two, starts, the_other_quits, SGT_TIMED_OUT},
    {"a start behind a cut", behind_a_cut, starts, the_other_quits_while_both_are_asked, SGT_TIMED_OUT},
    {"a start behind a try that is alone", behind_one_alone, starts, the_helper_goes_on, SGT_TIMED_OUT},
    {"a run in a full engine", beside_two, runs, the_other_quits, SGT_TIMED_OUT},
    {"a run behind a cut", behind_a_cut, runs, the_other_quits_while_both_are_asked, SGT_TIMED_OUT},
    {"a run behind a try that is alone", behind_one_alone, runs, the_helper_goes_on, SGT_TIMED_OUT},
    {"a run in its commit", beside_a_writer, runs, the_other_commits, SGT_TIMED_OUT},
    {"a cut", beside_one, cuts, the_other_quits, SGT_TIMED_OUT},
    {"a drain", 0, drains, a_run_ends, SGT_OK},
    {"a try after a cycle", has_closed_cycle, tries, the_other_quits, SGT_TIMED_OUT},
    {"a commit of a try", has_read_in_try, commits_try, the_other_commits, SGT_TIMED_OUT},
    {"a function in its commit", beside_a_writer, transacts_reader, the_other_commits, SGT_TIMED_OUT},
    {"a function after a cycle", beside_one, transacts_again, the_other_quits, SGT_TIMED_OUT},
    {"a function that is to be alone", beside_one, transacts_alone, the_other_quits, SGT_TIMED_OUT},
};

/* While a cut is due, each start waits for it. */
static const struct scene pauses[] = {
    {"a start before a cut", beside_a_writer, starts, the_other_quits, SGT_TIMED_OUT},
    {"a start that makes the cut", beside_a_writer, starts, the_other_is_abandoned, SGT_TIMED_OUT},
    {"a run before a cut", beside_a_writer, runs, the_other_quits, SGT_TIMED_OUT},
    {"a run that makes the cut", beside_a_writer, runs, the_other_is_abandoned, SGT_TIMED_OUT},
    {"one that is to be alone, before a cut", beside_a_writer, transacts_alone, the_other_quits, SGT_TIMED_OUT},
    {"one that is to be alone, and cuts", beside_a_writer, transacts_alone, the_other_is_abandoned, SGT_TIMED_OUT},
    {"a try before a cut", beside_a_writer, tries, the_other_quits, SGT_TIMED_OUT},
};

/* What the watch of the call does when it is asked first */

static void ends_it(struct stage *it)
{
    it->has_ended = true;
    it->scene->ends(it);
}

static void *ends_it_elsewhere(void *of)
{
    ends_it(of);
    return 0;
}

/* It is held up while another thread does. */
static void is_held_up_meanwhile(struct stage *it) { elsewhere(it, ends_it_elsewhere); }

static void interrupts(struct stage *it) { it->is_interrupted = true; }

/* The question is answered while all are woken, for nothing. */
static void interrupts_while_all_wake(struct stage *it)
{
    lock(it->shared);
    wake_all(it->shared);
    announce(&it->shared->lock, &it->shared->queued);
    unlock(it->shared);
    interrupts(it);
}

static void leaves_it(struct stage *it) { leave_by(it->way); }

static void *holds_lock(void *of)
{
    struct stage *it = of;
    lock(it->shared);
    it->is_held = true;
    while (!it->lets_go) sched_yield();
    unlock(it->shared);
    return 0;
}

/* Another thread, which the child does not have, holds the lock meanwhile. The parent goes on. */
static void forks_beside_a_holder(struct stage *it)
{
    pthread_t holder;
    CHECK(pthread_create(&holder, 0, holds_lock, it) == 0);
    while (!it->is_held) sched_yield();
    forks_once();
    if (is_child) return;
    it->lets_go = true;
    pthread_join(holder, 0);
    ends_it(it);
}

static uint32_t is_asked(void *context)
{
    struct stage *it = context;
    if (it->asked++ == 0) it->acts(it);
    return it->is_interrupted;
}

/* How the call goes on */

static void begin_stage(struct stage *it, const struct scene *scene, bool pauses_first, void (*acts)(struct stage *it))
{
    sgt_shared_config config = SGT_SHARED_CONFIG;
    config.keeps_ended = 1;
    config.cut_after = pauses_first ? 1 : SGT_NEVER;
    config.cut_wait_ns = pauses_first ? SGT_FOREVER - 1 : 0;
    *it = (struct stage){.scene = scene, .shared = opens(&config), .own = SGT_TRANSACTION, .acts = acts};
    it->wait_ns = SGT_FOREVER;
    of_what = scene->name;
    if (scene->begins) scene->begins(it);
}

/* Nothing of the call, or of the helper, is left but what may be live. */
static void end_stage(struct stage *it)
{
    if (!it->has_ended) ends_it(it);
    if (it->has_helper) pthread_join(it->helper, 0);
    holds_nothing(it->shared);
    serves_and_closes(it->shared);
}

static void makes(void *of)
{
    struct stage *it = of;
    sgt_shared_watch(is_asked, it);
    it->status = it->scene->call(it);
    ends_child(it->status);
    sgt_shared_watch(0, 0);
}

/* It is woken, whoever ends what it waits for. */
static void is_woken(const struct scene *scene, bool pauses_first)
{
    static void (*const ways[])(struct stage *) = {ends_it, is_held_up_meanwhile};
    for (int i = 0; i < 2; i++) {
        struct stage it;
        begin_stage(&it, scene, pauses_first, ways[i]);
        it.wait_ns = LONG;
        makes(&it);
        CHECK(it.status == SGT_OK && it.asked > 0 && it.asked < MOST_ASKED);
        end_stage(&it);
    }
}

/* It ends as if its deadline had come, also if it is woken in the same moment. */
static void is_interrupted_once(const struct scene *scene, bool pauses_first)
{
    static void (*const ways[])(struct stage *) = {interrupts, interrupts_while_all_wake};
    for (int i = 0; i < 2; i++) {
        struct stage it;
        begin_stage(&it, scene, pauses_first, ways[i]);
        makes(&it);
        CHECK(it.status == scene->late && it.asked == 1);
        end_stage(&it);
    }
}

/* The watch does not return: the call is given up, and what it waits for may end then. */
static void is_left_by_its_watch(const struct scene *scene, bool pauses_first)
{
    for (enum way way = 0; way < WAYS; way++) {
        struct stage it;
        if (!can_leave(way)) continue;
        begin_stage(&it, scene, pauses_first, leaves_it);
        it.way = way;
        if (way == JUMPS) it.wait_ns = LONG;
        const uint64_t live = lives(it.shared);
        const bool is_commit = it.own.is_live; /* of a try, which ends with it */
        is_left(makes, &it, way);
        CHECK(lives(it.shared) == live - is_commit && !it.own.is_live);
        end_stage(&it);
    }
}

/* A child that the watch forks ends its call. The parent goes on. */
static void is_forked_by_its_watch(const struct scene *scene, bool pauses_first)
{
    struct stage it;
    begin_stage(&it, scene, pauses_first, forks_beside_a_holder);
    makes(&it);
    CHECK(it.status == SGT_OK);
    end_stage(&it);
}

/* All of this for each call. Much of it is sleep, so it is done side by side, but for forks. */

enum { SCENES = sizeof scenes / sizeof *scenes, ALL = SCENES + sizeof pauses / sizeof *pauses, WORKERS = 6 };

static const struct scene *scene_at(int i) { return i < SCENES ? &scenes[i] : &pauses[i - SCENES]; }

static void *tests_some(void *of)
{
    for (int i = *(const int *)of; i < ALL; i += WORKERS) {
        is_woken(scene_at(i), i >= SCENES);
        is_interrupted_once(scene_at(i), i >= SCENES);
        is_left_by_its_watch(scene_at(i), i >= SCENES);
    }
    return 0;
}

static void each_call_that_rests(void)
{
    pthread_t threads[WORKERS];
    int firsts[WORKERS];
    for (int i = 0; i < WORKERS; i++) {
        firsts[i] = i;
        CHECK(pthread_create(&threads[i], 0, tests_some, &firsts[i]) == 0);
    }
    for (int i = 0; i < WORKERS; i++) pthread_join(threads[i], 0);
}

static void each_call_that_rests_is_forked(void)
{
    for (int i = 0; i < ALL; i++) is_forked_by_its_watch(scene_at(i), i >= SCENES);
}

/* A thread that all others wake without end */

static void *wakes_all(void *of)
{
    struct stage *it = of;
    while (!it->may_go_on) {
        lock(it->shared);
        wake_all(it->shared);
        unlock(it->shared);
        sched_yield();
    }
    return 0;
}

/* It is asked all the same. */
static void a_watch_is_asked_however_often_all_are_woken(void)
{
    struct stage it;
    pthread_t thread;
    begin_stage(&it, &scenes[0], false, interrupts);
    CHECK(pthread_create(&thread, 0, wakes_all, &it) == 0);
    makes(&it);
    CHECK(it.status == SGT_TIMED_OUT && it.asked == 1);
    it.may_go_on = true;
    pthread_join(thread, 0);
    end_stage(&it);
}

/* A thread that is cancelled while it is asked */

static void is_cancelled_meanwhile(struct stage *it)
{
    it->is_ready = true;
    while (!it->may_go_on) sched_yield();
    pthread_testcancel();
    ends_it(it);
}

static void *makes_and_ends(void *of)
{
    makes(of);
    pthread_testcancel();
    return 0;
}

/* It goes on until its call has returned. */
static void a_thread_that_is_cancelled_in_its_watch_goes_on(void)
{
    struct stage it;
    void *ended = 0;
    begin_stage(&it, &scenes[0], false, is_cancelled_meanwhile);
    it.status = UINT32_MAX;
    CHECK(pthread_create(&it.helper, 0, makes_and_ends, &it) == 0);
    while (!it.is_ready) sched_yield();
    CHECK(pthread_cancel(it.helper) == 0);
    it.may_go_on = true;
    CHECK(pthread_join(it.helper, &ended) == 0 && ended == PTHREAD_CANCELED && it.status == SGT_OK && it.asked > 0);
    end_stage(&it);
}

int main(void)
{
    an_announcement_is_never_lost();
    an_announcement_wakes_nobody_later();
    all_that_rest_are_counted_out();
    a_watch_is_asked_however_often_all_are_woken();
    a_thread_that_is_cancelled_in_its_watch_goes_on();
    each_call_that_rests();
    each_call_that_rests_is_forked();
    printf("%d checks, %d failed\n", checks, failed);
    return failed != 0;
}
