"""The plugin of the tree, where the package isn't installed."""

pytest_plugins = ["mdb_play.pytest_plugin"]
