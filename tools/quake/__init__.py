"""Maps of Quake 3 and its kin as maps of this server; `tools/from_quake` is its command."""
