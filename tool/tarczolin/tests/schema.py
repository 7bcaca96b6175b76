"""Holds each line on standard input to the JSON Schema in the file named, by python3-jsonschema, and counts those that fit."""
import json
import sys

from jsonschema import Draft202012Validator

with open(sys.argv[1], encoding='utf-8') as file:
    schema = json.load(file)
Draft202012Validator.check_schema(schema)
fits = [Draft202012Validator(schema).is_valid(json.loads(line)) for line in sys.stdin]
print(f'{sum(fits)} fit, {len(fits) - sum(fits)} do not')
