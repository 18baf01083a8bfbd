"""JSON Schema, as far as docs/schemas uses it. A word that is not known here is an error, so that no rule goes unheld."""

import json

HELD = {'type', 'properties', 'required', 'additionalProperties', 'items', 'minItems', 'maxItems', 'minimum', 'maximum', 'enum', 'const',
        'anyOf', '$ref'}
SAID = {'$schema', '$id', '$defs', 'title', 'description'}
KINDS = {'object': dict, 'array': list, 'string': str, 'null': type(None), 'integer': int, 'number': (int, float), 'boolean': bool}


def is_kind(value, name):
    return isinstance(value, KINDS[name]) and (name == 'boolean' or not isinstance(value, bool))


class Schemas:
    def __init__(self, folder):
        self.files = {path.name: json.loads(path.read_text()) for path in sorted(folder.glob('*.json'))}

    def faults(self, name, value):
        """Where and how a value breaks the schema of a command."""
        return list(self.broken(self.files[f'{name}.json'], value, '$'))

    def broken(self, schema, value, at):
        if unknown := set(schema) - HELD - SAID:
            raise ValueError(f'{at}: {unknown} in a schema')
        if '$ref' in schema:
            file, _, path = schema['$ref'].partition('#/$defs/')
            yield from self.broken(self.files[file]['$defs'][path], value, at)
        if 'anyOf' in schema:
            tried = [list(self.broken(one, value, at)) for one in schema['anyOf']]
            if all(tried):
                yield from min(tried, key=len)
        if 'type' in schema and not is_kind(value, schema['type']):
            yield f'{at}: {value!r} is no {schema["type"]}'
            return
        if 'const' in schema and value != schema['const'] or 'enum' in schema and value not in schema['enum']:
            yield f'{at}: {value!r}'
        if 'minimum' in schema and value < schema['minimum'] or 'maximum' in schema and value > schema['maximum']:
            yield f'{at}: {value} is out of range'
        if isinstance(value, dict):
            yield from self.of_object(schema, value, at)
        if isinstance(value, list):
            yield from self.of_array(schema, value, at)

    def of_object(self, schema, value, at):
        known = schema.get('properties', {})
        yield from (f'{at}: {name} is missing' for name in schema.get('required', []) if name not in value)
        if schema.get('additionalProperties') is False:
            yield from (f'{at}: {name} is not known' for name in value if name not in known)
        for name in value.keys() & known.keys():
            yield from self.broken(known[name], value[name], f'{at}.{name}')

    def of_array(self, schema, value, at):
        if not schema.get('minItems', 0) <= len(value) <= schema.get('maxItems', len(value)):
            yield f'{at}: {len(value)} items'
        for number, item in enumerate(value):
            yield from self.broken(schema.get('items', {}), item, f'{at}[{number}]')
