# A map without perms: it may write.
/name="broker"/,/<\/protection_domain>/ s/\(mr="readings".*\) perms="r"/\1/
