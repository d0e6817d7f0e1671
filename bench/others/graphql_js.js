// Checks the files of one project with graphql-js: `node graphql_js.js FILE..`, where its module `graphql` is found.
const fs = require('fs');
const { Source, buildASTSchema, concatAST, parse, validate } = require('graphql');

const documents = process.argv.slice(2).map((file) => parse(new Source(fs.readFileSync(file, 'utf8'), file)));
const isExecutable = (definition) => ['OperationDefinition', 'FragmentDefinition'].includes(definition.kind);
const { definitions } = concatAST(documents);
const schema = buildASTSchema({ kind: 'Document', definitions: definitions.filter((one) => !isExecutable(one)) });
const operations = { kind: 'Document', definitions: definitions.filter(isExecutable) };
const errors = validate(schema, operations, undefined, { maxErrors: Infinity });
console.log(errors.length ? errors.map(String).join('\n') : 'ok');
