/* A whole check cycle of Nagios Core 4.4.6, by its own event loop, handler of results and queue: the earliest event is handled, which begins a
 * check of its service. The result comes at once, and the service is scheduled again.
 *
 *   cycle SERVICES CYCLES     writes ns=TIME ops=CYCLES
 *
 * The worker, macros, broker, status file, flapping and logs are the empty stubs of Nagios's own suite, so the daemon spends more than this. */
#define TEST_CHECKS_C
#define NSCORE 1
#include <unistd.h>
#include "config.h"
#include "comments.h"
#include "common.h"
#include "statusdata.h"
#include "downtime.h"
#include "macros.h"
#include "nagios.h"
#include "broker.h"
#include "sretention.h"
#include "perfdata.h"
#include "../lib/lnag-utils.h"
#include "stub_sehandlers.c"
#include "stub_comments.c"
#include "stub_perfdata.c"
#include "stub_downtime.c"
#include "stub_notifications.c"
#include "stub_logging.c"
#include "stub_broker.c"
#include "stub_statusdata.c"
#include "stub_flapping.c"
#include "stub_nebmods.c"
#include "stub_netutils.c"
#include "stub_commands.c"
#include "stub_xodtemplate.c"
#include "stub_sretention.c"
#include "stub_nsock.c"
#include "stub_iobroker.c"
#include "stub_macros.c"

/* The check that was handed to the worker last. */
static check_result *begun;

int wproc_run_check(check_result *result, char *command, nagios_macros *macros) { begun = result; return OK; }
int wproc_can_spawn(struct load_control *load) { return 1; }
void wproc_reap(int jobs, int milliseconds) {}
int get_desired_workers(int desired) { return 4; }
int service_notification(service *svc, int type, char *author, char *data, int options) { return OK; }
int host_notification(host *hst, int type, char *author, char *data, int options) { return OK; }
int handle_host_event(host *hst) { return OK; }
int handle_service_event(service *svc) { return OK; }
int log_host_event(host *hst) { return OK; }
int log_service_event(service *svc) { return OK; }
int update_program_status(int aggregated_dump) { return OK; }
int log_debug_info(int level, int verbosity, const char *format, ...) { return OK; }

/* The stubs of these two give an empty command, and a check without a command is abandoned, so ours pass the command on. */
int command_line(nagios_macros *macros, command *one, char *words, char **line, int options) { *line = strdup("check"); return OK; }
int macros_of(nagios_macros *macros, char *in, char **out, int options) { *out = strdup(in); return OK; }

/* A service of the host, due at this time. */
static void schedule(service *svc, host *hst, unsigned number, time_t due)
{
	char name[32];

	sprintf(name, "service%05u", number);
	svc->host_name = hst->name;
	svc->host_ptr = hst;
	svc->description = strdup(name);
	svc->check_command = "check";
	svc->check_interval = 5;
	svc->retry_interval = 1;
	svc->max_attempts = 3;
	svc->current_attempt = 1;
	svc->state_type = HARD_STATE;
	svc->checks_enabled = svc->should_be_scheduled = svc->has_been_checked = svc->accept_passive_checks = TRUE;
	svc->next_check = due;
	schedule_service_check(svc, due, CHECK_OPTION_NONE);
}

/* One cycle; ends the program if no check was begun. */
static void cycle(service *services)
{
	timed_event *event = squeue_peek(nagios_squeue);

	begun = NULL;
	handle_timed_event(event);
	remove_event(nagios_squeue, event);
	free(event);
	if (!begun)
		exit(1);
	begun->return_code = 0;
	begun->output = strdup("OK - fine");
	handle_async_service_check_result(&services[atoi(begun->service_description + strlen("service"))], begun);
	free_check_result(begun);
	free(begun);
}

int main(int count, char **words)
{
	if (count != 3)
		return 2;
	unsigned number = atoi(words[1]);
	unsigned long cycles = strtoul(words[2], NULL, 10);
	service *services = calloc(number, sizeof *services);
	host *hst = calloc(1, sizeof *hst);
	struct timespec begin, end;
	time_t now = time(NULL);

	hst->name = hst->address = "host";
	hst->check_command = "check";
	hst->has_been_checked = TRUE;
	hst->last_check = now + 1000000;
	execute_service_checks = execute_host_checks = TRUE;
	interval_length = 60;
	cached_host_check_horizon = 15;
	nagios_squeue = squeue_create(number < 4096 ? 4096 : number);
	for (unsigned i = 0; i < number; i++)
		schedule(&services[i], hst, i, now + 1 + (time_t)i * 300 / number);
	clock_gettime(CLOCK_MONOTONIC, &begin);
	for (unsigned long i = 0; i < cycles; i++)
		cycle(services);
	clock_gettime(CLOCK_MONOTONIC, &end);
	printf("ns=%lld ops=%lu\n", (end.tv_sec - begin.tv_sec) * 1000000000LL + end.tv_nsec - begin.tv_nsec, cycles);
	return squeue_size(nagios_squeue) != number;
}
