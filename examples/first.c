#include <inttypes.h>
#include <stdio.h>
#include <orderset.h>

static uint32_t say(const char *what, uint32_t number) {
    if (number)
        printf("%s: %s\n", what, orderset_strerror(number));
    return number;
}

int main(void) {
    const struct orderset_key key = {7, 0};
    struct orderset *set;
    struct orderset_record r = {0}; /* the iteration begins with zeros */
    struct orderset_order order;
    say("create", orderset_create("first.img", 1000, 1)); /* room for 999 open orders; layout 1 */
    if (say("open", orderset_open("first.img", ORDERSET_WRITE, &set)))
        return 1;
    uint32_t number = say("new", orderset_book_new(set, key, 100));
    if ((number && number != ORDERSET_NEW_KEY_EXISTS) || say("fill", orderset_book_fill(set, key, 40)))
        return 1;
    while ((number = orderset_next(set, &r)) == 0)
        if (orderset_order_of(r.value, r.length, &order))
            printf("%" PRIu64 ": ordered %" PRIu64 ", filled %" PRIu64 "\n", r.key.low, order.ordered, order.filled);
    orderset_close(set);
    return number == ORDERSET_END ? 0 : 1;
}
