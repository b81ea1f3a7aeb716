/* The archive against the model of document 01 and of the order book, call by call, in the layout that the test is
 * built for (layout.h): every return code, answer, count of slots compared, state, store, index number, output and
 * image byte is compared, and after a cut the recovered set is compared with a plain map. The answers about single
 * lines are compared too: of random and damaged lines, and of every line of the images in histories; and what they say
 * will be stored first and last with what each call hands out. There the counts are those of a chain for each head: the
 * held keys of a head have the counts from 1 to their number, each once, and any other key of that head has their
 * number. In histories that are book steps only, total ordered is total filled plus total withdrawn plus what is open.
 * In the other histories there are baskets too, whose stores are made, all of them or as a cut leaves them: recovery
 * must give all of the basket or nothing of it, also after cuts among the stores that open void slots. Beside each
 * recovery the slots are counted. With an index that is not the image's own, the slots of a basket and the index that
 * it leaves are free, and of a single call whose slot is not the reuse chain's first all but the refusal.
 *
 * Each call that writes is made by one of the two families (orderset_raw.h), by chance. With an index that is the
 * image's own both are held to the model of document 01, and beside the one the other is called on copies, in a large
 * set now and then: code, answer, stores, index and state must be the same. With any other index, or where the state
 * does not name the newest slot, the owner's call is held to the model of its own definition, and nothing of it is
 * free. Ends with status 1 at the first difference and prints the case.
 *
 *     differential [SEED [CALLS]]
 *     differential SEED CALLS damaged    recovers damaged images alone, one a call
 */
#include "differential.h"

enum { LARGE = 5, CALLS = 3000000 };

/* How often the answer of the rules was met that was met least, of these calls; 100 is absent, 101 already. */
static uint64_t least_met(uint64_t times[WHICH][ANSWERS], const char *const rules[WHICH], unsigned of) {
    uint64_t least = UINT64_MAX;
    for (int w = 0; w < WHICH; w++)
        for (char *p = of >> w & 1 ? (char *)rules[w] : NULL; p && *p;) {
            uint64_t here = times[w][strtoul(p, &p, 10)];
            least = here < least ? here : least;
        }
    return least;
}

static const char *const answers[WHICH] = {
    [FORMAT] = "0 1 32",
    [RECOVER] = "0 1 2 3 4 5 6 7 8 22 23 24 25",
    [INSERT] = "0 1 2 3 4 9 10 11 20 28",
    [REPLACE] = "0 1 2 3 4 9 10 11 21 28",
    [REMOVE] = "0 100 1 2 3 4 9 11 28",
    [GET] = "0 100 1 2 3 4 11 13 23",
    [LOCATE] = "0 100 1 2 3 4 11",
    [NEW] = "0 1 2 3 4 9 11 17 19 28",
    [ACKNOWLEDGE] = "0 101 1 2 3 4 9 11 18 28",
    [FILL] = "0 1 2 3 4 9 11 18 19 28",
    [WITHDRAW] = "0 1 2 3 4 9 11 18 28",
    [PLAY] = "0 1 14 15",
    [PLAY_LIST] = "0 15",
    [BASKET] = "0 1 2 3 4 9 10 11 13 20 21 26 27 28",
    [LINE_WHOLE] = "0 33",
    [LINE_VERSION] = "0 33",
    [LINE_FIRST] = "0 9 33",
    [LINE_LAST] = "0 9 33",
};

/* those that come with the slots compared */
static const char *const far_answers[WHICH] = {
    [INSERT] = "0 9 11 20 28", [REPLACE] = "0 9 11 21 28", [REMOVE] = "0 100 9 11 28",
    [GET] = "0 100 13 23",     [LOCATE] = "0 100",
};

static void round_of_calls(void) {
    for (int i = 0; i < 200; i++) {
        images();
        damaged();
        garbage();
        lengths();
        lines();
    }
    for (int i = 0; i < 20; i++)
        small_history();
    medium_history();
}

static int only_damaged(uint64_t wanted) {
    uint64_t refused = 0;
    memset(met, 0, sizeof met);
    for (calls = 0; calls < wanted;)
        damaged();
    printf("%" PRIu64 " damaged images", calls);
    for (unsigned k = 1; k < ABSENT; k++)
        if (met[RECOVER][k])
            printf(", %" PRIu64 " times %u", met[RECOVER][k], k), refused += met[RECOVER][k];
    printf("; %" PRIu64 " refused, each with its slot: no difference (%.0f s)\n", refused, seconds());
    return 0;
}

int main(int count, char **word) {
    uint64_t wanted = count > 2 ? strtoull(word[2], NULL, 10) : CALLS, least, far_least, own_least;
    begin_chance(LAYOUT == 1 ? "differential" : "differential of layout 2", count > 1 ? word[1] : NULL);
    for (int i = 0; i < 20; i++)
        all_directed();
    if (count > 3 && !strcmp(word[3], "damaged"))
        return only_damaged(wanted);
    while (calls < wanted)
        round_of_calls();
    for (unsigned k = 0; k < LARGE; k++)
        large_history(k);
    least = least_met(met, answers, UINT_MAX);
    own_least = least_met(own_met, answers, IN_OWN);
    far_least = least_met(far_met, far_answers, UINT_MAX);
    printf("%" PRIu64 " calls, %" PRIu64 " of them struck with all 81 pairs of counts, %" PRIu64
           " questions about lines, %" PRIu64 " baskets and %" PRIu64 " that a cut struck, %" PRIu64
           " invalidating stores, %" PRIu64 " images counted, each answer of the rules at least %" PRIu64
           " times, %" PRIu64 " with 2 or more slots compared, up to %" PRIu64 "; %" PRIu64
           " calls by the owner, each answer at least %" PRIu64 " times, %" PRIu64
           " by both families: no difference (%.0f s)\n",
           calls, strikes, queries, baskets, half_baskets, openings, counted, least, far_least, longest, own_calls,
           own_least, both, seconds());
    return least == 0 || own_least == 0 || far_least == 0 || baskets == 0 || half_baskets == 0 || openings == 0
           || counted == 0 || both == 0;
}
