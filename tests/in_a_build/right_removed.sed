# The crypto server may only read what it is to sign.
/name="crypto"/,/<\/protection_domain>/ s/\(mr="to_sign".*\)perms="rw"/\1perms="r"/
