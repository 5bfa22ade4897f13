"""pymongo 3.11 over the proved pools and the proved topology: `MongoClient(.., _pool_class=pymongo_driver.pool)` replaces its pools, and `install()` its
topology with them. Sockets, commands, monitors' threads and server selection stay pymongo's. bindings/python has to be on the path."""

from .pool import Pool, pool
from .topology import Topology, install, remove

__all__ = ["Pool", "Topology", "install", "pool", "remove"]
