"""The policies of other filters' rules: a module reads what each source writes (iptables_save, nft, vpp) into rules on boxes of
packets (rules, packets); chains writes these out in the order in which packets meet them; policy writes the lines."""
