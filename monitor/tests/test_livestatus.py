"""Livestatus: each table, and each header of the language."""
import ast
import json
import time

from nagsched_monitor.outputs.livestatus_tables import COLUMNS
from nagsched_monitor.store.rows import StoredChange

from .livestatus_site import NOW, LivestatusTest, ask, remark

KINDS = {"int": int, "time": int, "float": float, "string": str, "list": list, "dict": dict}


class Tables(LivestatusTest):
    def test_hosts_and_services(self) -> None:
        self.serve()
        self.assertEqual(self.rows("GET hosts", "Columns: name alias address parents childs groups state num_services num_services_pending"), [
            ["db", "db", "db", ["gate"], [], ["dbs", "linux"], 0, 2, 1], ["gate", "gate", "gate", [], ["db", "web"], [], 0, 0, 0],
            ["web", "Web server", "192.0.2.7", ["gate"], [], ["linux"], 0, 2, 0]])
        self.assertEqual(self.rows("GET hosts", "Columns: notes notes_url_expanded icon_image custom_variable_names custom_variable_values custom_variables "
                                   "check_command in_check_period contacts", "Filter: name = web"),
                         [["room 3", "https://wiki/web", "linux.png", ["RACK", "LAT"], ["7", "52.1"], {"RACK": "7", "LAT": "52.1"}, "check_we", 1,
                           ["ada", "bob"]]])
        self.assertEqual(self.rows("GET hosts", "Columns: services_with_state worst_service_state num_services_crit num_services_hard_warn",
                                   "Filter: num_services > 0"),
                         [[[["backup job", 0, 0], ["disk", 2, 1]], 2, 1, 0], [[["http", 0, 1], ["load", 1, 1]], 1, 0, 0]])
        self.assertEqual(self.rows("GET services", "Columns: host_name description display_name state state_type has_been_checked host_alias"), [
            ["db", "backup job", "backup job", 0, 1, 0, "db"], ["db", "disk", "disk", 2, 1, 1, "db"], ["web", "http", "Web site", 0, 1, 1, "Web server"],
            ["web", "load", "load", 1, 0, 1, "Web server"]])
        self.assertEqual(self.rows("GET services", "Columns: plugin_output long_plugin_output perf_data current_attempt max_check_attempts is_flapping latency "
                                   "execution_time check_interval notifications_enabled", "Filter: description = disk"),
                         [["CRITICAL - 99% \u00fcber", "more\\nlines", "/=99%;80;90", 3, 3, 1, 0.25, 0.5, 6.0, 0]])
        self.assertEqual(self.rows("GET services", "Columns: in_check_period check_period notification_period notification_interval action_url",
                                   "Filter: description = http"), [[0, "never", "always", 360.0, "https://graphs/web"]])
        ((fresh,),) = self.rows("GET services", "Columns: staleness", "Filter: description = http")
        self.assertTrue(0 < fresh < 2, fresh)

    def test_groups(self) -> None:
        self.serve()
        self.assertEqual(self.rows("GET hostgroups", "Columns: name alias notes members num_hosts num_hosts_up num_services worst_service_state"), [
            ["dbs", "dbs", "", ["db"], 1, 1, 2, 2], ["empty", "empty", "", [], 0, 0, 0, 0], ["linux", "Linux servers", "all", ["db", "web"], 2, 2, 4, 2]])
        self.assertEqual(self.rows("GET servicegroups", "Columns: name members members_with_state num_services_ok num_services_crit"), [
            ["shop", [["db", "disk"], ["web", "http"]], [["db", "disk", 2, 1], ["web", "http", 0, 1]], 1, 1]])
        self.assertEqual(self.ask("GET servicegroups", "Columns: members", "Filter: members >= web|http"), "db|disk,web|http\n")
        self.assertEqual(self.rows("GET hostsbygroup", "Columns: hostgroup_name hostgroup_alias name state"), [
            ["dbs", "dbs", "db", 0], ["linux", "Linux servers", "db", 0], ["linux", "Linux servers", "web", 0]])
        self.assertEqual(self.rows("GET servicesbygroup", "Columns: servicegroup_name host_name description"),
                         [["shop", "db", "disk"], ["shop", "web", "http"]])
        self.assertEqual(len(self.rows("GET servicesbyhostgroup", "Columns: hostgroup_name description", "Filter: hostgroup_name = linux")), 4)
        self.assertEqual(self.rows("GET contacts", "Columns: name alias email"), [["ada", "Ada L", "ada@example.org"], ["cem", "cem", ""]])
        self.assertEqual(self.rows("GET contactgroups", "Columns: name alias members"), [["web-team", "Web team", ["ada", "bob"]]])

    def test_remarks(self) -> None:
        later = time.time() + 3600
        self.fill(remark(1, "acknowledgement", "db;disk", sticky=True, state="CRITICAL"), remark(2, "downtime", "web", ends_at=later),
                  remark(3, "downtime", "web;http", starts_at=later, ends_at=later + 60, duration=30.0),
                  remark(4, "comment", "web", text="a; b", persistent=True, made_at=NOW + 0.5),
                  remark(5, "mute", "web;load"), remark(6, "comment", "gone"))
        self.serve()
        self.assertEqual(self.rows("GET services", "Columns: description acknowledged acknowledgement_type scheduled_downtime_depth "
                                   "host_scheduled_downtime_depth notifications_enabled comments downtimes"), [
            ["backup job", 0, 0, 0, 0, 1, [], []], ["disk", 1, 2, 0, 0, 0, [1], []], ["http", 0, 0, 0, 1, 1, [], [3]], ["load", 0, 0, 0, 1, 0, [], []]])
        self.assertEqual(self.rows("GET comments", "Columns: id host_name service_description author comment entry_type is_service persistent"),
                         [[1, "db", "disk", "ann", "known", 4, 1, 0], [4, "web", "", "ann", "a; b", 1, 0, 1]])
        self.assertEqual(self.rows("GET downtimes", "Columns: id host_name service_description fixed duration type triggered_by host_alias end_time"),
                         [[2, "web", "", 1, 0, 0, 0, "Web server", int(later)], [3, "web", "http", 0, 30, 1, 0, "Web server", int(later) + 60]])
        self.assertEqual(self.rows("GET hosts", "Columns: comments_with_info comments_with_extra_info downtimes_with_info", "Filter: name = web"),
                         [[[[4, "ann", "a; b"]], [[4, "ann", "a; b", 1, NOW]], [[2, "ann", "known"]]]])

    def test_log(self) -> None:
        changes = [StoredChange(number, NOW + number, name, state, kind, 1, False, "words|a=1\nmore") for number, name, state, kind in (
            (1, "db;disk", "CRITICAL", "SOFT"), (2, "web", "DOWN", "HARD"), (3, "gone;x", "OK", "HARD"), (4, "db;disk", "OK", "HARD"))]
        self.fill(changes=changes)
        self.serve()
        message = f"[{NOW + 2}] HOST ALERT: web;DOWN;HARD;1;words"
        self.assertEqual(self.rows("GET log", "Columns: time type state host_name service_description plugin_output class state_type current_host_alias",
                                   f"Filter: time >= {NOW + 1}", f"Filter: time < {NOW + 3}"), [
            [NOW + 2, "HOST ALERT", 1, "web", "", "words", 1, "HARD", "Web server"], [NOW + 1, "SERVICE ALERT", 2, "db", "disk", "words", 1, "SOFT", "db"]])
        self.assertEqual(self.rows("GET log", "Columns: message", f"Filter: time >= {NOW + 2}", f"Filter: time <= {NOW + 3}", "And: 2",
                                   "Filter: type = HOST ALERT"),
                         [[message]])
        for lines in (["Filter: time = 1", f"Filter: time = {NOW + 2}", "Or: 2"], [f"Filter: time = {NOW + 2}", "Negate:", "Negate:"],
                      ["Filter: time < 5", "Filter: host_name = web", "Or: 2"]):
            self.assertEqual(self.rows("GET log", "Columns: message", *lines), [[message]])
        self.assertEqual(self.rows("GET log", "Stats: state = 0", "Stats: state != 0", "AuthUser: ada"), [[0, 1]])
        self.assertEqual(self.rows("GET services", "Columns: last_state last_time_ok last_time_critical", "Filter: description = disk")[0][:2], [2, NOW + 1])

    def test_others(self) -> None:
        self.serve()
        self.assertEqual(self.rows("GET commands", "Columns: name line"), [[name, name] for name in ("check_db", "check_ga", "check_we")])
        self.assertEqual(self.rows("GET timeperiods", "Columns: name in"), [["always", 1], ["never", 0]])
        self.assertEqual(self.rows("GET status", "Columns: num_hosts num_services interval_length enable_notifications livestatus_version"),
                         [[3, 4, 10, 1, "1.2.8"]])
        columns = self.rows("GET columns", "Columns: table name type description")
        self.assertEqual(sorted({each[0] for each in columns}), sorted(COLUMNS))
        self.assertIn(["hosts", "last_check", "time", "last check"], columns)

    def test_every_column(self) -> None:
        """Each value is of the kind that its column names, in all forms."""
        self.fill(remark(1, "acknowledgement", "db;disk"), remark(2, "downtime", "web", ends_at=time.time() + 60),
                  changes=[StoredChange(1, NOW, "db;disk", "CRITICAL", "HARD", 1, False, "")])
        self.serve()
        for table, columns in COLUMNS.items():
            heads, *rows = self.rows(f"GET {table}")
            self.assertEqual(heads, list(columns))
            self.assertTrue(rows, table)
            for row in rows:
                wrong = [(name, value) for name, value in zip(heads, row) if type(value) is not KINDS[columns[name].kind]]
                self.assertEqual(wrong, [], table)
            self.assertEqual(ast.literal_eval(self.ask(f"GET {table}", "OutputFormat: python", "Filter: staleness < 0" if table == "hosts" else "Limit: 0")),
                             [heads])
            self.assertEqual(len(self.ask(f"GET {table}").splitlines()), len(rows) + 1)
        self.assertEqual(self.lines, [])


    def test_columns_of_thruk(self) -> None:
        """What Thruk asks for is there, by what is known of its queries."""
        both = ("accept_passive_checks acknowledged action_url action_url_expanded active_checks_enabled check_command check_interval check_options "
                "check_period "
                "check_type checks_enabled comments current_attempt current_notification_number display_name event_handler event_handler_enabled "
                "execution_time "
                "custom_variable_names custom_variable_values first_notification_delay flap_detection_enabled groups has_been_checked high_flap_threshold "
                "icon_image icon_image_alt icon_image_expanded is_executing is_flapping last_check last_notification last_state_change latency "
                "long_plugin_output low_flap_threshold max_check_attempts next_check notes notes_expanded notes_url notes_url_expanded notification_interval "
                "notification_period notifications_enabled percent_state_change perf_data plugin_output process_performance_data retry_interval "
                "scheduled_downtime_depth state state_type modified_attributes_list contacts contact_groups in_check_period in_notification_period staleness")
        hosts = both + (" address alias check_freshness childs parents name num_services num_services_ok num_services_warn num_services_crit "
                        "num_services_unknown "
                        "num_services_pending obsess_over_host last_time_down last_time_unreachable last_time_up depends_exec depends_notify x_3d")
        services = both + " description obsess_over_service last_time_critical last_time_ok last_time_unknown last_time_warning depends_exec"
        services += "".join(f" host_{name}" for name in hosts.split())
        self.serve()
        for table, names in (
            ("hosts", hosts), ("services", services), ("hostgroups", "name alias members action_url notes notes_url"),
            ("servicegroups", "name alias members action_url notes notes_url"), ("timeperiods", "name alias"), ("commands", "name line"),
            ("contacts", "name alias email pager service_notification_period host_notification_period can_submit_commands"),
            ("contactgroups", "name alias members"),
            ("comments", "author comment entry_time entry_type expires expire_time host_name id persistent service_description source type"),
            ("downtimes", "author comment end_time entry_time fixed host_name id start_time service_description triggered_by duration is_service"),
            ("log", "class time type state host_name service_description plugin_output message state_type contact_name command_name current_host_groups "
                    "current_service_groups"),
            ("status", "accept_passive_host_checks accept_passive_service_checks check_external_commands check_host_freshness check_service_freshness "
                       "enable_event_handlers enable_flap_detection enable_notifications execute_host_checks execute_service_checks last_command_check "
                       "last_log_rotation livestatus_version nagios_pid obsess_over_hosts obsess_over_services process_performance_data program_start "
                       "program_version interval_length requests requests_rate service_checks_rate cached_log_messages neb_callbacks_rate"),
        ):
            self.assertEqual(self.rows(f"GET {table}", f"Columns: {names}", "ColumnHeaders: on")[0], names.split(), table)


class Language(LivestatusTest):
    def setUp(self) -> None:
        super().setUp()
        self.serve()

    def names(self, *lines: str) -> str:
        return " ".join(row[0] for row in self.rows("GET services", "Columns: description", *lines))

    def test_operators(self) -> None:
        for condition, wanted in (
            ("state = 1", "load"), ("state != 0", "disk load"), ("state > 1", "disk"), ("state >= 1", "disk load"), ("state < 1", "backup job http"),
            ("state <= 1", "backup job http load"), ("state !>= 1", "backup job http"), ("description = http", "http"), ("description =~ HTTP", "http"),
            ("description !=~ HTTP", "backup job disk load"), ("description ~ ^[bl]", "backup job load"), ("description ~ ^[BL]", ""),
            ("description ~~ ^[BL]", "backup job load"),
            ("description !~ o", "disk http"), ("description !~~ O", "disk http"), ("description < d", "backup job"), ("description >= http", "http load"),
            ("description = backup job", "backup job"), ("perf_data =", "backup job load"), ("perf_data !=", "disk http"), ("groups >= shop", "disk http"),
            ("groups < shop", "backup job load"), ("groups =", "backup job load"), ("groups !=", "disk http"), ("groups ~~ ^SH", "disk http"),
            ("host_parents >= gate", "backup job disk http load"), ("latency > 0.2", "disk"), ("host_custom_variables = RACK 7", "http load"),
            ("host_custom_variables ~ LAT 5", "http load"), ("service_description = http", "http"), ("service_host_name = db", "backup job disk"),
            ("current_attempt = 2", "load"), ("max_check_attempts = 3", "backup job disk http load"),
        ):
            self.assertEqual(self.names(f"Filter: {condition}"), wanted, condition)
        self.assertEqual(self.ask("GET hosts", "Columns: host_name", "Filter: host_groups >= dbs"), "db\n")

    def test_combinations(self) -> None:
        for lines, wanted in (
            (["state = 1", "state = 2", "Or: 2"], "disk load"), (["state = 1", "host_name = web"], "load"),
            (["state = 0", "host_name = web", "And: 2", "Negate:"], "backup job disk load"),
            (["state = 1", "state = 2", "Or: 2", "host_name = db", "And: 2", "description = http", "Or: 2"], "disk http"),
            (["state = 0", "And: 1"], "backup job http"),
            (["state = 0", "Negate:", "Negate:"], "backup job http"),
        ):
            self.assertEqual(self.names(*(line if ":" in line else f"Filter: {line}" for line in lines)), wanted, lines)

    def test_stats(self) -> None:
        self.assertEqual(self.rows("GET services", "Stats: state = 0", "Stats: state = 1", "Stats: state = 2", "StatsOr: 2", "Stats: state = 0",
                                   "StatsNegate:"), [[2, 2, 2]])
        self.assertEqual(self.rows("GET services", "Columns: host_name", "Stats: state = 0", "Stats: has_been_checked = 1", "StatsAnd: 2", "Stats: max state"),
                         [["db", 0, 2], ["web", 1, 1]])
        self.assertEqual(self.rows("GET services", "StatsGroupBy: groups", "Stats: state >= 0"), [[[], 2], [["shop"], 2]])
        self.assertEqual(self.rows("GET services", "Filter: description = nothing", "Stats: state = 0", "Stats: avg state", "Stats: max state"),
                         [[0, 0.0, 0.0]])
        self.assertEqual(self.rows("GET services", "Stats: sum state", "Stats: min state", "Stats: avg state", "Stats: std state"),
                         [[3.0, 0, 0.75, 0.9574271077563381]])
        self.assertEqual(self.ask("GET services", "Stats: state = 0", "ColumnHeaders: on"), "stats_1\n2\n")

    def test_order_and_limits(self) -> None:
        self.assertEqual(self.names("Sort: state desc", "Sort: description asc"), "disk load backup job http")
        self.assertEqual(self.names("Sort: host_name desc"), "http load backup job disk")
        self.assertEqual((self.names("Limit: 2"), self.names("Offset: 1", "Limit: 2"), self.names("Offset: 9"), self.names("Limit: 0")),
                         ("backup job disk", "disk http", "", ""))

    def test_forms(self) -> None:
        lines = ("GET services", "Columns: description state groups host_services_with_state", "Filter: description = disk")
        self.assertEqual(self.ask(*lines), "disk;2;shop;backup job|0|0,disk|2|1\n")
        self.assertEqual(self.ask(*lines, "Separators: 10 9 47 58"), "disk\t2\tshop\tbackup job:0:0/disk:2:1\n")
        self.assertEqual(self.ask(*lines, "ColumnHeaders: on"), "description;state;groups;host_services_with_state\ndisk;2;shop;backup job|0|0,disk|2|1\n")
        output = ("GET services", "Columns: plugin_output", "Filter: description = disk")
        self.assertEqual(self.ask(*output, "OutputFormat: json"), '[["CRITICAL - 99% \\u00fcber"]]\n')
        self.assertEqual(self.ask(*output, "OutputFormat: python"), "[['CRITICAL - 99% \\xfcber']]\n")
        self.assertEqual(json.loads(self.ask(*output[:2], "Limit: 1", "OutputFormat: wrapped_json")),
                         {"columns": ["plugin_output"], "data": [[""]], "total_count": 4})
        self.assertEqual(self.ask(*lines, "ResponseHeader: fixed16", "OutputFormat: json"),
                         '200          64\n[["disk", 2, ["shop"], [["backup job", 0, 0], ["disk", 2, 1]]]]\n')

    def test_users(self) -> None:
        """A contact sees its objects, the services on its hosts, and groups of which it sees all members."""
        for user, hosts, services, groups, shops in (("ada", "web", "http load", "", 0), ("bob", "web", "http load", "", 0), ("cem", "", "disk", "", 0),
                                                     ("nobody", "", "", "", 0)):
            lines = ["OutputFormat: json", f"AuthUser: {user}"]
            found = [" ".join(row[0] for row in json.loads(self.ask(f"GET {table}", f"Columns: {column}", *lines)))
                     for table, column in (("hosts", "name"), ("services", "description"), ("hostgroups", "name"))]
            self.assertEqual(found, [hosts, services, groups], user)
            self.assertEqual(self.ask("GET servicegroups", "Stats: num_services > 0", f"AuthUser: {user}"), f"{shops}\n")
            self.assertEqual(self.ask("GET commands", "Stats: name !=", f"AuthUser: {user}"), "3\n")

    def test_kept_connections(self) -> None:
        query = "GET hosts\nColumns: name\nFilter: name = web\nResponseHeader: fixed16\n"
        answer, refusal = "200           4\nweb\n", "404"
        self.assertEqual(ask(self.path, f"{query}KeepAlive: on\n\n{query}KeepAlive:on\n\n\n{query}\n{query}"), answer * 3)
        kept = ask(self.path, f"GET x\nKeepAlive: on\nResponseHeader: fixed16\n\n{query}\n")
        self.assertTrue(kept.startswith(refusal) and kept.endswith(answer), kept)

    def test_waiting(self) -> None:
        begun = time.monotonic()
        self.assertEqual(self.ask("GET hosts", "Columns: name", "WaitObject: web", "WaitCondition: state = 0", "WaitTrigger: check", "Filter: name = web"),
                         "web\n")
        self.assertLess(time.monotonic() - begun, 5)
        for lines in (["WaitTrigger: all"], ["WaitObject: db;disk", "WaitCondition: state = 0"],
                      ["WaitObject: db backup job", "WaitCondition: has_been_checked = 1"],
                      ["WaitCondition: state = 3", "WaitCondition: state = 7", "WaitConditionOr: 2"], ["WaitCondition: state >= 0", "WaitConditionNegate:"]):
            begun = time.monotonic()
            self.assertEqual(self.ask("GET services", "Stats: state = 0", "WaitTimeout: 600", *lines), "2\n", lines)
            self.assertTrue(0.5 < time.monotonic() - begun < 10, lines)
