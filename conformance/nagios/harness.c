/* Nagios Core 4.4.6 with a clock that this program sets, and without plugins.
 *
 * build.sh links every object of the daemon as it is. The linker's --wrap sends ten functions here: the clock, the poll for input, the start of
 * a plugin, the log, and the event broker's hook around an event. Nagios reads its configuration, runs its event loop, and handles results.
 *
 * Standard input is a list of histories. A child process plays each of them:
 *
 *   play DIRECTORY START END KEEP EARLY    DIRECTORY has nagios.cfg. Times are in seconds. KEEP is 1 if checks on demand stay in the queue;
 *                                          otherwise they are reported and taken out. EARLY is by how many ms the loop wakes too soon
 *   plan NAME SECONDS:CODE ..              how long the checks of an object take and what they return, again and again; without it no result comes
 *   at TIME NAME TEXT                      an external command; PAUSE SECONDS stops the process, or sets the clock back if SECONDS are below 0
 *   go
 *
 * Standard output has one line for each event, and `end` after a history. A time that doesn't exist is `-`.
 *
 *   first NAME DUE                         the first check
 *   start NAME NOW FORCED                  a check begins
 *   putoff NAME NOW DUE                    an event was handled without a check
 *   held NAME NOW DUE                      max_concurrent_checks held a service back
 *   asked NAME NOW DUE RECENT              the result in the next line asked for this check; RECENT is 1 if cached results count
 *   result NAME NOW CODE BEGUN STATE HARD ATTEMPT LASTHARD LASTSTATE FLAPPING PERCENT DUE FORCED LOGGED HOSTFLAPPING HOSTPERCENT
 *   command NAME NOW DUE FORCED ENABLED STATE HARD ATTEMPT
 *   clock NAME NOW DUE BY                  after a PAUSE of BY seconds: a line for each object
 */
#define NSCORE 1
#include <stdarg.h>
#include <sys/wait.h>
#include "config.h"
#include "common.h"
#include "objects.h"
#include "statusdata.h"
#include "comments.h"
#include "downtime.h"
#include "macros.h"
#include "nagios.h"
#include "broker.h"
#include "nebstructs.h"
#include "nebmodules.h"
#include "workers.h"
#include "../lib/libnagios.h"

#define SECOND 1000000LL
#define OBJECTS 64
#define STEPS 4096
#define RUNS 1024
#define tell(...) fprintf(out, __VA_ARGS__)
#define FORCED(event) ((event) && ((event)->event_options & CHECK_OPTION_FORCE_EXECUTION))

/* Codes of a plan that mean another end of the plugin. */
enum { TIMED_OUT = 1000, KILLED = 1001 };

void init_shared_cfg_vars(int);

typedef struct {
	char name[256];
	host *hst;
	service *svc; /* NULL for a host */
	int begun, steps;
	int takes[STEPS], codes[STEPS];
	timed_event before; /* the waiting check before a result, for the checks that the result asked for */
	time_t next_check;
	int options, waited;
} object;

typedef struct { check_result *result; object *of; long long ends; int code; } run;
typedef struct { long at; char name[256], text[512]; } order;

static object objects[OBJECTS];
static run runs[RUNS];
static order commands[STEPS];
static int object_count, run_count, command_count, command_next;
static long long now;
static long end_time;
static int keeps, early, begun_before;
static long paused; /* the seconds of a PAUSE that Nagios hasn't seen yet */
static char logged[64];
static FILE *out; /* standard output, to which Nagios itself would also write */

/* ---- the clock: each look at it takes a microsecond */

time_t __wrap_time(time_t *into)
{
	if (into)
		*into = now / SECOND;
	return now / SECOND;
}

int __wrap_gettimeofday(struct timeval *tv, void *zone)
{
	tv->tv_sec = now / SECOND;
	tv->tv_usec = now++ % SECOND;
	return 0;
}

/* ---- objects */

static object *find(const char *name)
{
	for (int i = 0; i < object_count; i++)
		if (!strcmp(objects[i].name, name))
			return &objects[i];
	fprintf(stderr, "harness: no object '%s'\n", name);
	exit(3);
}

static void find_objects(void)
{
	for (host *h = host_list; h; h = h->next) {
		object *o = &objects[object_count++];
		snprintf(o->name, sizeof o->name, "%s", h->name);
		o->hst = h;
	}
	for (service *s = service_list; s; s = s->next) {
		object *o = &objects[object_count++];
		snprintf(o->name, sizeof o->name, "%s;%s", s->host_name, s->description);
		o->hst = s->host_ptr;
		o->svc = s;
	}
}

static timed_event *event_of(object *o) { return o->svc ? o->svc->next_check_event : o->hst->next_check_event; }

static const char *due(object *o)
{
	static char text[32];
	timed_event *event = event_of(o);
	if (!event)
		return "-";
	snprintf(text, sizeof text, "%ld", (long)event->run_time);
	return text;
}

/* ---- the log */

int __wrap_log_service_event(service *s) { sprintf(logged, "%d,%d,%d", s->current_state, s->state_type, s->current_attempt); return OK; }
int __wrap_log_host_event(host *h) { sprintf(logged, "%d,%d,%d", h->current_state, h->state_type, h->current_attempt); return OK; }

void __wrap_logit(int type, int display, const char *format, ...)
{
	va_list list;
	va_start(list, format);
	if (!strncmp(format, "\tMax concurrent", 15)) {
		char name[256];
		(void)va_arg(list, int);
		const char *of = va_arg(list, char *), *description = va_arg(list, char *);
		snprintf(name, sizeof name, "%s;%s", of, description);
		tell("held %s %lld %lld\n", name, now / SECOND, (long long)find(name)->svc->next_check + va_arg(list, int));
	}
	else if ((type & (NSLOG_CONFIG_ERROR | NSLOG_VERIFICATION_ERROR | NSLOG_RUNTIME_ERROR)) && !strstr(format, "no services defined")) {
		vfprintf(stderr, format, list);
		fputc('\n', stderr);
	}
	va_end(list);
}

/* ---- plugins */

int __wrap_wproc_can_spawn(struct load_control *load) { return 1; }
void __wrap_wproc_reap(int jobs, int ms) {}

int __wrap_wproc_run_check(check_result *result, char *line, nagios_macros *macros)
{
	char name[256];
	snprintf(name, sizeof name, "%s%s%s", result->host_name, result->service_description ? ";" : "",
		result->service_description ? result->service_description : "");
	object *o = find(name);
	run *r = &runs[run_count++];
	if (run_count == RUNS)
		exit(4);
	*r = (run){ result, o, -1, 0 };
	if (o->steps) {
		int step = o->begun % o->steps;
		r->ends = result->start_time.tv_sec * SECOND + result->start_time.tv_usec + o->takes[step] * SECOND;
		r->code = o->codes[step];
	}
	o->begun++;
	tell("start %s %ld %d\n", name, (long)result->start_time.tv_sec, !!(result->check_options & CHECK_OPTION_FORCE_EXECUTION));
	return OK;
}

/* Notes the waiting checks. */
static void look(void)
{
	for (object *o = objects; o < objects + object_count; o++) {
		timed_event *event = event_of(o);
		o->waited = event != NULL;
		if (event)
			o->before = *event;
		o->next_check = o->svc ? o->svc->next_check : o->hst->next_check;
		o->options = o->svc ? o->svc->check_options : o->hst->check_options;
	}
}

/* Takes a check on demand out of the queue. */
static void take_back(object *o)
{
	timed_event *event = event_of(o);
	remove_event(nagios_squeue, event);
	if (o->waited) {
		event->run_time = o->before.run_time;
		event->event_options = o->before.event_options;
		add_event(nagios_squeue, event);
	}
	else
		free(event);
	if (o->svc) {
		o->svc->next_check_event = o->waited ? event : NULL;
		o->svc->next_check = o->next_check;
		o->svc->check_options = o->options;
	}
	else {
		o->hst->next_check_event = o->waited ? event : NULL;
		o->hst->next_check = o->next_check;
		o->hst->check_options = o->options;
	}
}

/* Reports each check of another object that a result has scheduled. */
static void tell_asked(object *but)
{
	for (object *o = objects; o < objects + object_count; o++) {
		timed_event *event = event_of(o);
		if (o == but || !event || (o->waited && event->run_time == o->before.run_time && event->event_options == o->before.event_options))
			continue;
		tell("asked %s %lld %s %d\n", o->name, now / SECOND, due(o), event->event_options == CHECK_OPTION_DEPENDENCY_CHECK);
		if (!keeps)
			take_back(o);
	}
}

static void end_run(run *which)
{
	run r = *which;
	object *o = r.of;
	service *s = o->svc;
	host *h = o->hst;
	memmove(which, which + 1, (char *)&runs[run_count--] - (char *)(which + 1));
	long begun = r.result->start_time.tv_sec;
	r.result->return_code = r.code;
	r.result->early_timeout = r.code == TIMED_OUT;
	r.result->exited_ok = r.code != KILLED;
	r.result->output = strdup("output");
	r.result->finish_time.tv_sec = now / SECOND;
	strcpy(logged, "-");
	look();
	process_check_result(r.result);
	tell_asked(o);
	tell("result %s %lld %d %ld %d %d %d %d %d %d %.9f %s %d %s %d %.9f\n", o->name, now / SECOND, r.code, begun,
		s ? s->current_state : h->current_state, s ? s->state_type : h->state_type, s ? s->current_attempt : h->current_attempt,
		s ? s->last_hard_state : h->last_hard_state, s ? s->last_state : h->last_state, s ? s->is_flapping : h->is_flapping,
		s ? s->percent_state_change : h->percent_state_change, due(o), !!FORCED(event_of(o)), logged, h->is_flapping, h->percent_state_change);
	free_check_result(r.result);
	free(r.result);
}

/* ---- the event loop: the next thing is a command, the end of a plugin, or an event of the queue */

static int is_pause(order *c) { return !strncmp(c->text, "PAUSE ", 6); }

static void run_command(order *c)
{
	char line[600];
	if (is_pause(c)) {
		paused = atol(c->text + 6);
		now += paused * SECOND;
		for (run *r = runs; paused < 0 && r < runs + run_count; r++)
			if (r->ends >= 0)
				r->ends += paused * SECOND;
		return;
	}
	snprintf(line, sizeof line, "[%lld] %s", now / SECOND, c->text);
	process_external_command1(line);
	object *o = find(c->name);
	service *s = o->svc;
	host *h = o->hst;
	tell("command %s %lld %s %d %d %d %d %d\n", o->name, now / SECOND, due(o), !!FORCED(event_of(o)), s ? s->checks_enabled : h->checks_enabled,
		s ? s->current_state : h->current_state, s ? s->state_type : h->state_type, s ? s->current_attempt : h->current_attempt);
}

static void tell_clock(void)
{
	for (object *o = objects; paused && o < objects + object_count; o++)
		tell("clock %s %lld %s %ld\n", o->name, now / SECOND, due(o), paused);
	paused = 0;
}

int __wrap_iobroker_poll(iobroker_set *set, int ms)
{
	tell_clock();
	const struct timeval *when = squeue_event_runtime(((timed_event *)squeue_peek(nagios_squeue))->sq_event);
	long long next = when->tv_sec * SECOND + when->tv_usec;
	run *ended = NULL;

	for (run *r = runs; r < runs + run_count; r++)
		if (r->ends >= 0 && (r->ends < next || (!ended && r->ends == next))) {
			next = r->ends;
			ended = r;
		}
	int is_command = command_next < command_count && commands[command_next].at * SECOND < next;
	if (is_command)
		next = commands[command_next].at * SECOND;
	/* Nagios looks at the clock once more before it is changed, as it does every 1.5 s. */
	if (is_command && is_pause(&commands[command_next]) && next > now) {
		now = next;
		return 0;
	}
	if (next >= (end_time + 1) * SECOND) {
		sigshutdown = TRUE;
		return 0;
	}
	if (early && !is_command && !ended)
		next = next - early * 1000 > now ? next - early * 1000 : now + 1000;
	if (next > now)
		now = next;
	if (is_command)
		run_command(&commands[command_next++]);
	else if (ended)
		end_run(ended);
	return is_command || ended;
}

/* The broker is called before and after each event that is handled. */
void __wrap_broker_timed_event(int type, int flags, int attr, timed_event *event, struct timeval *tv)
{
	if (!event || (event->event_type != EVENT_SERVICE_CHECK && event->event_type != EVENT_HOST_CHECK))
		return;
	object *o = objects;
	while (event->event_type == EVENT_SERVICE_CHECK ? o->svc != event->event_data : o->svc || o->hst != event->event_data)
		o++;
	if (type == NEBTYPE_TIMEDEVENT_EXECUTE)
		begun_before = o->begun;
	else if (type == NEBTYPE_TIMEDEVENT_END && o->begun == begun_before)
		tell("putoff %s %lld %s\n", o->name, now / SECOND, due(o));
}

/* ---- a history */

static void read_plan(char *rest)
{
	object *o = find(strtok(rest, " "));
	for (char *word; (word = strtok(NULL, " ")); o->steps++)
		if (o->steps == STEPS || sscanf(word, "%d:%d", &o->takes[o->steps], &o->codes[o->steps]) != 2)
			exit(4);
}

static void read_command(char *rest)
{
	order *c = &commands[command_count++];
	if (command_count == STEPS || sscanf(rest, "%ld %255s %511[^\n]", &c->at, c->name, c->text) != 3)
		exit(4);
}

static int play(char **lines, int count)
{
	char directory[512];
	long start;
	if (sscanf(lines[0], "play %511s %ld %ld %d %d", directory, &start, &end_time, &keeps, &early) != 5)
		return 3;
	now = start * SECOND;
	init_main_cfg_vars(1);
	init_shared_cfg_vars(1);
	asprintf(&config_file, "%s/nagios.cfg", directory);
	config_file_dir = strdup(directory);
	nagios_iobs = iobroker_create();
	reset_variables();
	if (read_main_config_file(config_file) != OK || read_all_object_data(config_file) != OK)
		return 5;
	if (pre_flight_check() != OK && service_list)
		return 6;
	program_start = event_start = start;
	init_event_queue();
	init_timing_loop();
	init_check_stats();
	find_objects();
	for (object *o = objects; o < objects + object_count; o++)
		tell("first %s %s\n", o->name, due(o));
	for (int i = 1; i < count; i++)
		if (!strncmp(lines[i], "plan ", 5))
			read_plan(lines[i] + 5);
		else if (!strncmp(lines[i], "at ", 3))
			read_command(lines[i] + 3);
		else
			return 7;
	event_execution_loop();
	return 0;
}

int main(void)
{
	char *line = NULL, **lines = NULL;
	size_t room = 0;
	int count = 0, most = 0, status;

	setenv("TZ", "UTC", 1);
	out = fdopen(dup(1), "w");
	if (!out || !freopen("/dev/null", "w", stdout))
		return 2;
	setvbuf(out, NULL, _IOFBF, 1 << 20);
	while (getline(&line, &room, stdin) > 0) {
		line[strcspn(line, "\n")] = 0;
		if (strcmp(line, "go")) {
			if (count == most)
				lines = realloc(lines, (most = most * 2 + 64) * sizeof *lines);
			lines[count++] = strdup(line);
			continue;
		}
		pid_t child = fork();
		if (child < 0)
			return 2;
		if (!child) {
			status = play(lines, count);
			fflush(out);
			_exit(status);
		}
		waitpid(child, &status, 0);
		tell(status ? "broken %d\nend\n" : "end\n", status);
		fflush(out);
		while (count)
			free(lines[--count]);
	}
	return 0;
}
