/* Iterations of libuv that don't block, idle or with two async handles and a timer each. */
#include <stdio.h>
#include <string.h>
#include <uv.h>

static unsigned long bottoms, handlers, timers;

static void bottom(uv_async_t *handle) { (void)handle; bottoms++; }
static void handler(uv_async_t *handle) { (void)handle; handlers++; }
static void expired(uv_timer_t *timer) { (void)timer; timers++; }

int main(int argc, char **argv) {
    uv_loop_t loop;
    uv_async_t half, event;
    uv_timer_t timer;
    int busy = argc > 1 && !strcmp(argv[1], "busy"), idle = argc > 1 && !strcmp(argv[1], "idle");
    unsigned long rounds = busy ? 200000 : idle ? 1000000 : 0;
    if (uv_loop_init(&loop) || uv_async_init(&loop, &half, bottom) || uv_async_init(&loop, &event, handler) ||
        uv_timer_init(&loop, &timer))
        return 1;
    uv_timer_start(&timer, expired, busy ? 0 : 1000000000, 0);
    for (unsigned long i = 0; i < rounds; i++) {
        if (busy) {
            uv_async_send(&half);
            uv_async_send(&event);
            uv_timer_start(&timer, expired, 0, 0);
        }
        uv_run(&loop, UV_RUN_NOWAIT);
    }
    printf("%s turns: %lu rounds, %lu bottom halves, %lu handlers, %lu timers\n", busy ? "busy" : "idle", rounds, bottoms, handlers, timers);
    return 0;
}
