// How long a thread takes to begin while the one that started it computes, and on which processor: what each round of a
// run waits for. cc -O2 -o starts bench/starts.c -lpthread && ./starts
#define _GNU_SOURCE
#include <pthread.h>
#include <sched.h>
#include <stdio.h>
#include <time.h>

static volatile double begun;
static volatile int processor;

static double microseconds(void) {
    struct timespec now;
    clock_gettime(CLOCK_MONOTONIC, &now);
    return now.tv_sec * 1e6 + now.tv_nsec / 1e3;
}

static void *begin(void *nothing) {
    begun = microseconds();
    processor = sched_getcpu();
    return nothing;
}

int main(void) {
    for (int number = 0; number < 20; number++) {
        pthread_t thread;
        begun = 0;
        double asked = microseconds();
        if (pthread_create(&thread, NULL, begin, NULL))
            return 1;
        double back = microseconds();
        while (!begun && microseconds() - back < 10000)
            ;
        pthread_join(thread, NULL);
        printf("started in %4.0f us, began after %5.0f us on processor %d, asked from %d\n", back - asked,
               begun - asked, processor, sched_getcpu());
    }
}
