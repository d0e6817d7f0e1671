// Answers lines of JSON with what graphql-js says, a line each, where Node finds its module `graphql`:
// {"judge": [[NAME, TEXT], ..]} with which rules are broken, and {"execute": {..}} with a response and the rows that it took.
const graphql = require('graphql');
const { validateSDL } = require('graphql/validation/validate');
const { specifiedSDLRules } = require('graphql/validation/specifiedRules');

const isExecutable = (one) => ['OperationDefinition', 'FragmentDefinition'].includes(one.kind);
const documentOf = (definitions) => ({ kind: 'Document', definitions });

// The codes T1 (with the file) and V1, S for a type system with faults, or the names of the rules that operations and fragments break.
function judge(files) {
  const broken = [], documents = [];
  for (const [name, text] of files) {
    try { documents.push(graphql.parse(text)); } catch (error) { broken.push('T1:' + name); }
  }
  if (broken.length) return broken;
  const isMixed = ({ definitions }) => definitions.some(isExecutable) && !definitions.every(isExecutable);
  if (documents.some(isMixed)) return ['V1'];
  const { definitions } = graphql.concatAST(documents);
  const types = documentOf(definitions.filter((one) => !isExecutable(one)));
  if (validateSDL(types, null, specifiedSDLRules).length) return ['S'];
  const schema = graphql.buildASTSchema(types, { assumeValidSDL: true });
  if (graphql.validateSchema(schema).length) return ['S'];
  const operations = documentOf(definitions.filter(isExecutable));
  return graphql.specifiedRules.filter((rule) => graphql.validate(schema, operations, [rule]).length).map((rule) => rule.name);
}

// Values as tables write them.
const numbered = (text) => (/^-?\d+$/.test(text) ? Number(text) : { num: text });
function literal(node) {
  switch (node.kind) {
    case 'NullValue': return null;
    case 'IntValue': case 'FloatValue': return numbered(node.value);
    case 'EnumValue': return { enum: node.value };
    case 'ListValue': return node.values.map(literal);
    case 'ObjectValue': return { object: Object.fromEntries(node.fields.map((one) => [one.name.value, literal(one.value)])) };
    default: return node.value;
  }
}
function plain(value) {
  if (Array.isArray(value)) return value.map(plain);
  if (value === null || typeof value !== 'object') return value;
  return { object: Object.fromEntries(Object.entries(value).map(([name, one]) => [name, plain(one)])) };
}
function written(value, type) {
  if (value === null || value === undefined) return null;
  if (graphql.isNonNullType(type)) return written(value, type.ofType);
  if (graphql.isListType(type)) return value.map((one) => written(one, type.ofType));
  if (graphql.isEnumType(type)) return { enum: value };
  if (!graphql.isInputObjectType(type)) return value;
  const fields = type.getFields();
  return { object: Object.fromEntries(Object.entries(value).map(([name, one]) => [name, written(one, fields[name].type)])) };
}

// Scalars that keep how a number is spelled, and take no result of another kind.
const refuse = () => { throw new Error('field error'); };
const number = (value) => (value && value.num ? Number(value.num) : typeof value === 'number' ? value : refuse());
function makeStrict(schema) {
  const of = (name, changes) => Object.assign(schema.getType(name) || {}, changes);
  of('Int', { serialize: (value) => (Number.isInteger(value) && Math.abs(value) < 2 ** 31 ? value : refuse()) });
  of('Float', {
    parseLiteral: (node) => (['IntValue', 'FloatValue'].includes(node.kind) ? literal(node) : refuse()),
    parseValue: (value) => number(value) === undefined || value,
    serialize: number,
  });
  of('String', { serialize: (value) => (typeof value === 'string' ? value : refuse()) });
  of('Boolean', { serialize: (value) => (typeof value === 'boolean' ? value : refuse()) });
  of('ID', { serialize: (value) => (['string', 'number'].includes(typeof value) ? String(value) : refuse()) });
  of('Date', {
    parseLiteral: literal,
    parseValue: plain,
    serialize: (value) => (['string', 'boolean'].includes(typeof value) ? value : number(value)),
  });
  // Default values were read before that. Each may take in those of other input objects.
  const defaulted = Object.values(schema.getTypeMap()).filter((one) => !one.name.startsWith('__') && one.getFields)
    .flatMap((one) => Object.values(one.getFields()).flatMap((field) => [field, ...(field.args || [])]))
    .filter((one) => one.astNode && one.astNode.defaultValue);
  for (let round = 0; round < 3; round++) {
    for (const one of defaulted) one.defaultValue = graphql.valueFromAST(one.astNode.defaultValue, one.type);
  }
}

// What the resolvers answer: it depends on a text alone, fits most often, and is an error, null or something else now and then.
function digest(text) {
  let found = 2166136261;
  for (const one of text) found = Math.imul(found ^ one.charCodeAt(0), 16777619);
  found = Math.imul(found ^ (found >>> 13), 0x5bd1e995);
  return (found ^ (found >>> 15)) >>> 0;
}
function answer(type, schema, key) {
  const isNonNull = graphql.isNonNullType(type);
  if (digest(key) % 100 < (isNonNull ? 4 : 6)) return null;
  const kind = digest(key + '~'), choice = kind >>> 8;
  return answerOf(isNonNull ? type.ofType : type, schema, key, kind % 100, choice);
}
function answerOf(type, schema, key, kind, choice) {
  const among = (all) => all[choice % all.length];
  if (kind < 3) return { error: true };
  if (graphql.isListType(type)) return { list: [...Array(choice % 3).keys()].map((at) => answer(type.ofType, schema, key + at)) };
  if (graphql.isObjectType(type)) return { object: [kind < 5 ? 'C' : type.name, choice % 3] };
  if (graphql.isAbstractType(type)) {
    const possible = schema.getPossibleTypes(type).map((one) => one.name);
    return possible.length ? { object: [kind < 5 ? among(['A', 'B', 'C', 'Query']) : among(possible), choice % 3] } : { error: true };
  }
  if (kind < 7) return among([{ leaf: 'w' }, { leaf: true }, { leaf: 5 }, { object: ['A', 1] }, { list: [] }, { leaf: { num: '1.5' } }]);
  if (graphql.isEnumType(type)) return { leaf: among(type.getValues()).name };
  const leaves = { Int: [0, 1, -3], Float: [3, { num: '1.5' }], Boolean: [true, false], ID: [7, 'id'] };
  return { leaf: among(leaves[type.name] || ['s', 't', '']) };
}
function resolved(result) {
  if (result === null) return null;
  if (result.error) return new Error('field error');
  if (result.list) return result.list.map(resolved);
  return result.object ? { type: result.object[0], object: result.object[1] } : result.leaf;
}

function execute({ texts, operation, variables, seed }) {
  const { definitions } = graphql.concatAST(texts.map((text) => graphql.parse(text)));
  const schema = graphql.buildASTSchema(documentOf(definitions.filter((one) => !isExecutable(one))), { assumeValidSDL: true });
  makeStrict(schema);
  const roots = [schema.getQueryType(), schema.getMutationType()];
  for (const type of Object.values(schema.getTypeMap())) {
    if (graphql.isObjectType(type) && !roots.includes(type)) type.isTypeOf = (value) => value && value.type === type.name;
  }
  const rows = new Map();
  const fieldResolver = (source, given, _context, { parentType, fieldName, returnType }) => {
    const definitionsOfArguments = parentType.getFields()[fieldName].args.filter((one) => given[one.name] !== undefined);
    const args = Object.fromEntries(definitionsOfArguments.map((one) => [one.name, written(given[one.name], one.type)]));
    const key = JSON.stringify([parentType.name, source.object, fieldName, sorted(args)]);
    const row = { type: parentType.name, object: source.object, field: fieldName, args };
    if (!rows.has(key)) rows.set(key, { ...row, result: answer(returnType, schema, seed + key) });
    return resolved(rows.get(key).result);
  };
  const { data, errors } = graphql.execute({
    schema, fieldResolver, document: documentOf(definitions.filter(isExecutable)), rootValue: { object: 0 },
    typeResolver: (value) => value && value.type, operationName: operation, variableValues: variables,
  });
  const paths = (errors || []).map((one) => one.path || null);
  return { response: data === undefined ? { paths } : { data, paths }, rows: [...rows.values()] };
}
function sorted(value) {
  if (Array.isArray(value)) return value.map(sorted);
  if (value === null || typeof value !== 'object') return value;
  return Object.fromEntries(Object.keys(value).sort().map((name) => [name, sorted(value[name])]));
}

require('readline').createInterface({ input: process.stdin }).on('line', (line) => {
  const asked = JSON.parse(line);
  let told;
  try { told = asked.judge ? judge(asked.judge) : execute(asked.execute); } catch (error) { told = { failed: String(error) }; }
  process.stdout.write(JSON.stringify(told) + '\n');
});
