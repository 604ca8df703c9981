/* Threads that only sleep, a millisecond at a time, for the time that bench/run has its streams asleep: what the pauses alone cost. */
#include <pthread.h>
#include <stdlib.h>
#include <time.h>

static const long PAUSE_NS = 1000000;
static const double SECONDS = 2.0;

static double now(void) {
    struct timespec time;
    clock_gettime(CLOCK_MONOTONIC, &time);
    return time.tv_sec + time.tv_nsec / 1e9;
}

static void *sleep_on(void *unused) {
    const struct timespec pause = {0, PAUSE_NS};
    const double end = now() + SECONDS;
    (void)unused;
    while (now() < end)
        nanosleep(&pause, NULL);
    return NULL;
}

int main(int count, char **words) {
    pthread_t threads[16];
    const int many = count > 1 ? atoi(words[1]) : 1;
    if (many < 1 || many > 16)
        return 2;
    for (int k = 0; k < many; k++)
        if (pthread_create(&threads[k], NULL, sleep_on, NULL) != 0)
            return 1;
    for (int k = 0; k < many; k++)
        pthread_join(threads[k], NULL);
    return 0;
}
