"""The numbers of nagsched.h: statuses, codes, states, and the kinds of calls, replies and refusals."""
import enum

# The version of the library's interface that this package needs.
VERSION = 3


class Result(enum.IntEnum):
    """The statuses that the functions of the library return."""

    OK = 0
    WAIT = 1
    SPENT = 2
    NO_MEMORY = 3
    REFUSED = 4
    MISSING = 5
    WRONG = 6


class Code(enum.IntEnum):
    """The return code of a check."""

    OK = 0
    WARNING = 1
    CRITICAL = 2
    UNKNOWN = 3


class State(enum.IntEnum):
    """The state of a service, OK to UNKNOWN, or of a host, UP to UNREACHABLE."""

    OK = 0
    WARNING = 1
    CRITICAL = 2
    UNKNOWN = 3
    UP = 4
    DOWN = 5
    UNREACHABLE = 6


class Kind(enum.IntEnum):
    """Whether a state is soft, which further checks have to confirm, or hard."""

    SOFT = 0
    HARD = 1


class CallKind(enum.IntEnum):
    """The six calls."""

    TAKE = 0
    REPORT = 1
    ABANDON = 2
    RESCHEDULE = 3
    ENABLE = 4
    STATUS = 5


class ReplyKind(enum.IntEnum):
    """The replies. From 100 on, the call was refused and changed nothing."""

    TAKEN = 0
    PUT_OFF = 1
    IDLE = 2
    AT_LIMIT = 3
    STANDING = 4
    FREED = 5
    DONE = 6
    UNKNOWN_OBJECT = 101
    TIME_RANGE = 102
    NOT_RUNNING = 103
    WRONG_RUN = 104
    RUNS_SPENT = 105


class RefusalKind(enum.IntEnum):
    """Why a document is no setup, from 200 on, or a text no saved state, from 300 on. The number is that of the refusal's line: 205 for L5."""

    NOT_JSON = 201
    SHAPE = 202
    TOO_MANY = 203
    BAD_NAME = 204
    DUPLICATE = 205
    UNKNOWN_HOST = 206
    UNKNOWN_MASTER = 207
    RANGE = 208
    DEPENDENCY_CYCLE = 209
    PARENT_CYCLE = 210
    TOO_LONG = 212
    SAVED_TOO_LONG = 301
    SAVED_NOT_JSON = 302
    SAVED_VERSION = 303
    SAVED_SHAPE = 304
    SAVED_TOO_MANY = 305
    SAVED_BAD_NAME = 306
    SAVED_DUPLICATE = 307
    SAVED_RANGE = 308
    SAVED_UNLAWFUL = 309


class Part(enum.IntEnum):
    """The part of a document to which a refusal refers."""

    NONE = 0
    DOCUMENT = 1
    OPTIONS = 2
    HOSTS = 3
    SERVICES = 4
    SERVICE_DEPENDENCIES = 5
    HOST_DEPENDENCIES = 6
