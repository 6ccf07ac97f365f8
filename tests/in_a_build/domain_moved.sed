# The driver of the network stands after all other domains.
/name="nic" priority/,/<\/protection_domain>/ {
  H
  d
}
/<!-- channels -->/ {
  x
  G
}
