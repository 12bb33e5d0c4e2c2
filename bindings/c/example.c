/* One grain in a periodic box, started and run to its second synchronisation, which it does not reach. */
#include "../fesolopi.h"

#include <stdio.h>
#include <stdlib.h>

int main(void) {
    const double grain[6] = {3.5, 4.5, -1.0, 0.0, 0.5, 0.5}; /* x, y, vx, vy, value, radius */
    const uint64_t room = 64;
    uint64_t inputs, lists_length, grains_length, queue_length, events_length, order_length, bad, done,
        answer;
    double clock;

    if (fesolopi_needed(9.0, 9.0, 1, room, &inputs, &lists_length, &grains_length, &queue_length,
                        &events_length, &order_length) != FESOLOPI_DONE)
        return 1;
    uint64_t *lists = calloc(lists_length, sizeof *lists), *queue = calloc(queue_length, sizeof *queue);
    double *grains = calloc(grains_length, sizeof *grains), *events = calloc(events_length, sizeof *events);
    uint8_t *order = calloc(order_length, sizeof *order);
    if (!lists || !grains || !queue || !events || !order)
        return 1;

    answer =
        fesolopi_start(9.0, 9.0, true, true, 1, room, grain, 6, lists, lists_length, grains, grains_length,
                       queue, queue_length, events, events_length, order, order_length, &bad);
    printf("start: %d\n", (int)answer);
    for (int n = 1; n <= 3; n++) {
        answer = fesolopi_run(lists, lists_length, grains, grains_length, queue, queue_length, events,
                              events_length, order, order_length, 1.0, 1000, &clock, &done);
        printf("run %d: %d, clock %g, events %d\n", n, (int)answer, clock, (int)done);
    }
    free(lists), free(grains), free(queue), free(events), free(order);
    return 0;
}
