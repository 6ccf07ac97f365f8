# The updater is removed, and with it its channels and regions.
/name="updater"/,/<\/protection_domain>/d
/_updater"/d
/<channel>/ {
  N
  N
  N
  /pd="updater"/d
}
