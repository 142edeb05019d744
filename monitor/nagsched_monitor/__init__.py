"""A site's monitor: it runs the plugins of hosts and services. `nagsched live` decides which check is due, and what each result means.

    program    the program: its options, its loop, and the processes next to it
    outputs    the reports of a monitor: changes, pages, figures, Nagios's status file, the service manager
    inputs     the ways to send a request to a monitor: its socket, and Nagios's pipe
    core       the work of a turn: it plans, stores and makes calls, and acts on the answers
    scheduler  the schedulers of a site: processes of `nagsched live`, and the meaning of their answers
    run        programs that run plugins: runners of this machine, and workers of a Gearman server
    store      the database of a site
    site       the files of a site, read and tested
    system     the machine: files that don't block, the log, processes, addresses
    model      the types that all share: objects, their states, runs and remarks, calls and answers, jobs, moments, texts
    faults     why the monitor can't begin or refuses a request

A package uses only packages below it in this list. Each module says what it is for."""
