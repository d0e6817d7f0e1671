// Executes an operation over a table of rows with graphql-js: `node graphql_js_exec.js TABLE SCHEMA OPERATIONS`, where its module
// `graphql` is found. Rows are kept in a map by their type, object, field and arguments.
const fs = require('fs');
const { buildSchema, execute, parse, validate } = require('graphql');

const [table, schemaFile, operations] = process.argv.slice(2).map((file) => fs.readFileSync(file, 'utf8'));
const schema = buildSchema(schemaFile);
const document = parse(operations);
const errors = validate(schema, document);
if (errors.length) throw errors[0];

const sorted = (one) => JSON.stringify(Object.entries(one).sort(([a], [b]) => (a < b ? -1 : 1)));
const key = (type, object, field, given) => `${type} ${object} ${field} ${sorted(given)}`;
const found = new Map(JSON.parse(table).rows.map((row) => [key(row.type, row.object, row.field, row.args), row.result]));

const value = (result) => {
  if (result === null) return null;
  if (result.list) return result.list.map(value);
  if (result.object) return { __typename: result.object[0], object: result.object[1] };
  return result.leaf;
};
const fieldResolver = (source, given, _context, info) => {
  const result = found.get(key(info.parentType.name, source.object, info.fieldName, given));
  if (result === undefined) throw new Error('no row');
  return value(result);
};
const response = execute({ schema, document, fieldResolver, rootValue: { object: 0 } });
process.stdout.write(JSON.stringify(response) + '\n');
