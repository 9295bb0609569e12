#!/usr/bin/env python3
"""Run once at the top, before port.py: one module alias read like a name of today's spelling, so port.py took the
repository for half turned and left its older steps out. The alias gets another name; nothing else changes."""
import re

FILE = "crates/reader/proofs/next/Proof.antt"
text = open(FILE, encoding="utf-8").read()
text = text.replace("proofs.read_at as read_at\n", "proofs.read_at as reading\n")
text = re.sub(r"(?<![\w.-])read_at\.(?=[a-z])", "reading.", text)
open(FILE, "w", encoding="utf-8").write(text)
