# The logger may write to the log of the broker.
/name="logger"/,/<\/protection_domain>/ s/\(mr="log_broker".*\)perms="r"/\1perms="rw"/
