"""Errors in the words that a driver of each age expects. Old drivers know a stepped-down primary by the text `not master`, and not by a code; a server says
`not primary` only to clients that said `helloOk`."""

from __future__ import annotations

from typing import Iterable

from .wire import Document

NAMES = {
    6: "HostUnreachable",
    7: "HostNotFound",
    11: "UserNotFound",
    18: "AuthenticationFailed",
    20: "IllegalOperation",
    43: "CursorNotFound",
    50: "MaxTimeMSExpired",
    59: "CommandNotFound",
    64: "WriteConcernFailed",
    72: "InvalidOptions",
    89: "NetworkTimeout",
    91: "ShutdownInProgress",
    100: "UnsatisfiableWriteConcern",
    112: "WriteConflict",
    189: "PrimarySteppedDown",
    251: "NoSuchTransaction",
    262: "ExceededTimeLimit",
    352: "UnsupportedOpQueryCommand",
    9001: "SocketException",
    10058: "LegacyNotPrimary",
    10107: "NotWritablePrimary",
    11000: "DuplicateKey",
    11600: "InterruptedAtShutdown",
    11602: "InterruptedDueToReplStateChange",
    13435: "NotPrimaryNoSecondaryOk",
    13436: "NotPrimaryOrSecondary",
}
# Names of before 4.4, for clients that did not say `helloOk`.
_OLD_NAMES = {10107: "NotMaster", 13435: "NotMasterNoSlaveOk", 13436: "NotMasterOrSecondary"}
_TEXTS = {
    10107: ("not primary", "not master"),
    10058: ("not primary", "not master"),
    13435: ("not primary and secondaryOk=false", "not master and slaveOk=false"),
    13436: ("node is not in primary or recovering state", "node is recovering"),
    189: ("the primary stepped down; not primary", "not master; primary stepped down while waiting"),
    11600: ("interrupted at shutdown", "interrupted at shutdown"),
    11602: ("operation was interrupted", "operation was interrupted"),
    91: ("the server is in quiesce mode and will shut down", "shutdown in progress"),
}
NOT_WRITABLE = frozenset({10107, 13435, 10058, 189, 11602, 13436, 11600, 91})
SHUTTING_DOWN = frozenset({11600, 91})
RETRYABLE = NOT_WRITABLE | {6, 7, 89, 9001, 262}


def failure(code: int, modern: bool, text: str | None = None, labels: Iterable[str] = ()) -> Document:
    """The answer that tells an error; `modern` says that the client said `helloOk`."""
    name = NAMES.get(code, f"Location{code}") if modern else _OLD_NAMES.get(code, NAMES.get(code, f"Location{code}"))
    texts = _TEXTS.get(code, (f"made-up error {code}",) * 2)
    said: Document = {"ok": 0.0, "errmsg": text or texts[0 if modern else 1], "code": code, "codeName": name}
    kept = list(labels)
    return {**said, "errorLabels": kept} if kept else said


def labels_of(code: int, retryable_write: bool, in_transaction: bool, commits: bool) -> list[str]:
    """The labels that a server of today puts on an error."""
    if (retryable_write or commits) and code in RETRYABLE:
        return ["RetryableWriteError"]
    if in_transaction and (code in RETRYABLE or code in (112, 251)):
        return ["TransientTransactionError"]
    return []
