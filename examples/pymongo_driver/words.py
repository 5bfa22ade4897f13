"""What pymongo says, as the library is told it: addresses, errors, and a server's description as a hello's document."""

import bson
from pymongo.errors import AutoReconnect, NetworkTimeout, NotMasterError, OperationFailure, WriteError
from pymongo.server_type import SERVER_TYPE

_TYPES = {
    SERVER_TYPE.Standalone: {"isWritablePrimary": True},
    SERVER_TYPE.Mongos: {"isWritablePrimary": True, "msg": "isdbgrid"},
    SERVER_TYPE.RSPrimary: {"isWritablePrimary": True},
    SERVER_TYPE.RSSecondary: {"isWritablePrimary": False, "secondary": True},
    SERVER_TYPE.RSArbiter: {"isWritablePrimary": False, "arbiterOnly": True},
    SERVER_TYPE.RSOther: {"isWritablePrimary": False, "hidden": True},
    SERVER_TYPE.RSGhost: {"isWritablePrimary": False, "isreplicaset": True},
}


def name_of(address):
    host, port = address
    host = host.lower()
    return f"[{host}]:{port}" if ":" in host else f"{host}:{port}"


def address_of(name):
    host, port = name.rsplit(":", 1)
    return host.strip("[]"), int(port)


def document_of(description):
    """The hello by which a server got this description."""
    told = dict(_TYPES[description.server_type])
    told.update(
        maxBsonObjectSize=description.max_bson_size,
        maxMessageSizeBytes=description.max_message_size,
        maxWriteBatchSize=description.max_write_batch_size,
        minWireVersion=description.min_wire_version,
        maxWireVersion=description.max_wire_version,
    )
    if description.replica_set_name:
        hosts = [name_of(it) for it in description.all_hosts]
        told.update(setName=description.replica_set_name, hosts=hosts, setVersion=description.set_version, electionId=description.election_id)
        told.update(me=name_of(description.me) if description.me else None, tags={str(key): str(value) for key, value in description.tags.items()})
        told.update(primary=name_of(description.primary) if description.primary else None)
    told.update(logicalSessionTimeoutMinutes=description.logical_session_timeout_minutes, topologyVersion=description.topology_version)
    return bson.encode({key: value for key, value in told.items() if value is not None} | {"ok": 1.0})


def error_of(error):
    """The words of an error. A command's is told by its code, and where the server told none by its text; a write error tells nothing of the server."""
    details = getattr(error, "details", None) or {}
    text = "".join(it if " " <= it <= "~" and it != "|" else " " for it in str(error))[:200]
    kind = "other"
    if isinstance(error, WriteError):
        pass
    elif isinstance(error, (NotMasterError, OperationFailure)):
        by_text = 13436 if "node is recovering" in str(error) else 10107 if isinstance(error, NotMasterError) else 0
        kind = f"command.{details.get('code') or getattr(error, 'code', None) or by_text}"
    elif isinstance(error, NetworkTimeout):
        kind = "timeout"
    elif isinstance(error, (AutoReconnect, OSError)):
        kind = "network"
    version = details.get("topologyVersion")
    told = f" tv={version['processId']}.{int(version['counter'])}" if version else ""
    return f"{kind}{told} msg={text}"
