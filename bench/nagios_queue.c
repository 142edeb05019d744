/* A cycle of the event queue of Nagios Core 4.4.6: the first of n events is taken out, and put back 5 minutes later.
 *
 *   queue EVENTS CYCLES     writes ns=TIME ops=CYCLES */
#include <stdio.h>
#include <stdlib.h>
#include <time.h>
#include "../lib/squeue.h"

int main(int count, char **words)
{
	if (count != 3)
		return 2;
	unsigned number = atoi(words[1]);
	unsigned long cycles = strtoul(words[2], NULL, 10);
	squeue_t *queue = squeue_create(number);
	time_t *due = calloc(number, sizeof *due);
	struct timespec begin, end;

	for (unsigned i = 0; i < number; i++) {
		due[i] = 1000000 + (time_t)i * 300 / number;
		squeue_add_usec(queue, due[i], i % 1000000, &due[i]);
	}
	clock_gettime(CLOCK_MONOTONIC, &begin);
	for (unsigned long i = 0; i < cycles; i++) {
		time_t *first = squeue_pop(queue);
		*first += 300;
		squeue_add_usec(queue, *first, (first - due) % 1000000, first);
	}
	clock_gettime(CLOCK_MONOTONIC, &end);
	printf("ns=%lld ops=%lu\n", (end.tv_sec - begin.tv_sec) * 1000000000LL + end.tv_nsec - begin.tv_nsec, cycles);
	return squeue_size(queue) != number;
}
