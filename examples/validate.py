#!/usr/bin/env python3
"""Prints what einv finds in an invoice, by the JSON of `validate`."""
import json
import os
import subprocess
import sys

ran = subprocess.run([os.environ.get("EINV", "./einv"), "validate", "--json", sys.argv[1]], capture_output=True, check=False)
if ran.returncode > 1:
    sys.exit(ran.stderr.decode().strip())
for one in json.loads(ran.stdout)["findings"]:
    print(one["kind"], one["id"], one["line"])
