/* The yardstick of bench/lock: threads that add to a sum under pthread_mutex, and how long a pause takes. */
#include <pthread.h>
#include <stdio.h>
#include <stdlib.h>
#include <time.h>

static pthread_mutex_t mutex = PTHREAD_MUTEX_INITIALIZER;
static volatile unsigned long sum;
static unsigned long turns, pauses;

static void pause_often(void) {
    for (unsigned long i = 0; i < pauses; i++) __builtin_ia32_pause();
}

static void *add(void *unused) {
    for (unsigned long i = 0; i < turns; i++) {
        pthread_mutex_lock(&mutex);
        pause_often();
        sum++;
        pthread_mutex_unlock(&mutex);
    }
    return unused;
}

/* With "pause" as its only argument it prints how many pauses take 20 microseconds, in the quickest of some tries. */
int main(int count, char **words) {
    if (count < 4) {
        struct timespec from, to;
        double least = 1e18;
        pauses = 10000;
        for (int i = 0; i < 200; i++) {
            clock_gettime(CLOCK_MONOTONIC, &from);
            pause_often();
            clock_gettime(CLOCK_MONOTONIC, &to);
            double took = (to.tv_sec - from.tv_sec) * 1e9 + (to.tv_nsec - from.tv_nsec);
            if (took < least) least = took;
        }
        printf("%.0f\n", 20000 / (least / pauses));
        return 0;
    }
    unsigned long threads = strtoul(words[1], 0, 10);
    turns = strtoul(words[2], 0, 10) / threads;
    pauses = strtoul(words[3], 0, 10);
    pthread_t thread[64];
    for (unsigned long i = 1; i < threads; i++) pthread_create(&thread[i], 0, add, 0);
    add(0);
    for (unsigned long i = 1; i < threads; i++) pthread_join(thread[i], 0);
    printf("%lu\n", sum);
    return 0;
}
