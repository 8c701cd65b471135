"""What stands beside Bukshena's program, in Python: pictures, a judge of claims, a ledger for people, a prompt.

No module decides what is proved: each answer on truth is the program's. `process` asks it, `replies` reads what it
writes, `script` reads what it is given, `faults` has what can go wrong."""
