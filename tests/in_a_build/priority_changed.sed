# The updater has a higher priority, which is still below that of the server that it calls.
s/name="updater" priority="100"/name="updater" priority="130"/
