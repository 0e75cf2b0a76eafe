/* reading_time: how long bolgtun_judge takes on a plan at the limits, and on one of a quarter its size.

   Prints for each its size and the median time of a call, in microseconds, and then how many times as long the larger
   one takes. */
#include <stdio.h>
#include <stdlib.h>
#include <time.h>

#include "bolgtun.h"

#define RUNS 501

struct plan {
    uint32_t tasks;
    uint32_t predecessors;
    size_t length;
    uint8_t bytes[16384]; /* no plan is as long */
};

static void put(struct plan *plan, uint32_t number)
{
    for (; number >= 128; number /= 128)
        plan->bytes[plan->length++] = 128 + number % 128;
    plan->bytes[plan->length++] = number;
}

/* One task, with a name of full length and `count` predecessors from `first` on. */
static void put_task(struct plan *plan, uint32_t worst, uint32_t first, uint32_t count)
{
    put(plan, 16);
    for (int letter = 0; letter < 16; letter++)
        plan->bytes[plan->length++] = 'a' + letter;
    put(plan, worst);
    put(plan, count);
    for (uint32_t p = first; p < first + count; p++)
        put(plan, p);
    plan->predecessors += count;
}

/* Eight cores and one segment. Half the tasks follow nothing, so that many are ready at once; each of the others
   follows eight of them. */
static void make(struct plan *plan, uint32_t tasks)
{
    uint32_t half = tasks / 2;
    plan->tasks = tasks;
    plan->predecessors = 0;
    plan->length = 0;
    put(plan, 8);
    put(plan, 1000000000);
    put(plan, 1);
    put(plan, tasks);
    for (uint32_t t = 0; t < tasks; t++) {
        uint32_t worst = 1000 + t * 7919 % 1000;
        put_task(plan, worst, t < half ? 0 : (t - half) % (half - 7), t < half ? 0 : 8);
    }
    put(plan, 0);
}

static double microseconds(void)
{
    struct timespec now;
    clock_gettime(CLOCK_MONOTONIC, &now);
    return now.tv_sec * 1e6 + now.tv_nsec / 1e3;
}

static int by_size(const void *left, const void *right)
{
    double a = *(const double *)left, b = *(const double *)right;
    return (a > b) - (a < b);
}

static double median_time(const struct plan *plan)
{
    static double times[RUNS];
    for (int run = 0; run < RUNS; run++) {
        double start = microseconds();
        uint32_t answer = bolgtun_judge(plan->bytes, plan->length);
        times[run] = microseconds() - start;
        if (answer != BOLGTUN_ACCEPTED) {
            fprintf(stderr, "reading_time: the plan is answered with %u\n", (unsigned)answer);
            exit(1);
        }
    }
    qsort(times, RUNS, sizeof times[0], by_size);
    return times[RUNS / 2];
}

static double report(uint32_t tasks)
{
    static struct plan plan;
    make(&plan, tasks);
    double median = median_time(&plan);
    printf("tasks %u predecessors %u bytes %zu median %.1f us\n", (unsigned)tasks, (unsigned)plan.predecessors,
           plan.length, median);
    return median;
}

int main(void)
{
    double quarter = report(64);
    double full = report(256);
    printf("four times the size takes %.1f times as long\n", full / quarter);
    return 0;
}
