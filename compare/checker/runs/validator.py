"""Says for each line `[SCHEMA, INSTANCE]` of standard input, in JSON, whether jsonschema takes the instance for valid.

A program of its own, since another Python than the checker's may have the package.
"""

import json
import sys

from jsonschema import Draft202012Validator

for line in sys.stdin:
    schema, instance = json.loads(line)
    print("yes" if Draft202012Validator(schema).is_valid(instance) else "no")
