// ES modules to one script, without a registry: each module becomes a function that is called once, in the order in which they need
// each other, and gives what it exports. It knows the forms of import and export that web/ uses; any other is an error.
import fs from 'node:fs';
import path from 'node:path';

const IMPORT = /^import\s+(?:\{([^}]*)\}|\*\s+as\s+(\w+))\s+from\s+'([^']+)';[^\S\n]*(?:\/\/.*)?$/gm;
const FROM = /^export\s+(?:\{([^}]*)\}|(\*))\s+from\s+'([^']+)';$/gm;
const NAMED = /^export\s+\{([^}]*)\};$/gm;
const DECLARED = /^export\s+(?=(?:async\s+)?function|class|const|let)/gm;

/** The pairs [inside, outside] of `a, b as c`. @param {string} names @returns {string[][]} */
const pairs = (names) => names.split(',').map((one) => one.trim()).filter(Boolean).map((one) => { const [a, b = a] = one.split(/\s+as\s+/); return [a, b]; });

/** What a module declares with `export` before it. @param {string} code @returns {string[]} */
function declared(code) {
  const names = [...code.matchAll(/^export\s+(?:(?:async\s+)?function\*?|class)\s+(\w+)/gm)].map((m) => m[1]);
  for (const [, rest] of code.matchAll(/^export\s+(?:const|let)\s+([\s\S]*?);$/gm)) names.push(...variables(rest));
  return names;
}

/** The names of `a = 1, b = f(2, 3)`: those at the outermost level. @param {string} text @returns {string[]} */
function variables(text) {
  const names = [];
  let depth = 0, due = true;
  for (const [token] of text.matchAll(/'(?:[^'\\]|\\.)*'|`(?:[^`\\]|\\.)*`|\/\/.*|\/\*[\s\S]*?\*\/|[([{]|[)\]}]|,|\w+|[^\s\w]/g)) {
    if (due && /^[A-Za-z_$]/.test(token)) { names.push(token); due = false; continue; }
    if (/^[([{]$/.test(token)) depth++;
    else if (/^[)\]}]$/.test(token)) depth--;
    else if (token === ',' && depth === 0) due = true;
  }
  return names;
}

/**
 * @param {string} folder where the modules are @param {string} entry the first of them, from that folder
 * @returns {{code: string, main: string}} the functions, and the name of what the entry exports
 */
export function bundle(folder, entry) {
  const names = new Map(), out = [];
  const visit = (file, asker) => {
    if (names.has(file)) {
      if (names.get(file) === null) throw new Error(`${asker} and ${file} import each other: a bundle has no order for them.`);
      return names.get(file);
    }
    names.set(file, null);
    const code = fs.readFileSync(path.join(folder, file), 'utf8'), name = `m_${file.replace(/\W/g, '_')}`;
    out.push(module(file, code, name, (from) => visit(path.posix.join(path.posix.dirname(file), from), file)));
    names.set(file, name);
    return name;
  };
  const main = visit(entry, '');
  return { code: out.join('\n'), main };
}

/** One module as a function. @param {string} file @param {string} code @param {string} name @param {(from: string) => string} needs */
function module(file, code, name, needs) {
  const given = declared(code).map((one) => [one, one]), passed = [];
  const body = code
    .replace(IMPORT, (_, list, all, from) => (all ? `const ${all} = ${needs(from)};` : `const { ${pairs(list).map(([a, b]) => (a === b ? a : `${a}: ${b}`)).join(', ')} } = ${needs(from)};`))
    .replace(FROM, (_, list, all, from) => {
      const other = needs(from);
      passed.push(all ? `...${other}` : pairs(list).map(([a, b]) => `${b}: ${other}.${a}`).join(', '));
      return '';
    })
    .replace(NAMED, (_, list) => { given.push(...pairs(list)); return ''; })
    .replace(DECLARED, '');
  const left = body.match(/^(?:import|export)\b.*/m);
  if (left) throw new Error(`web/${file}: the bundle does not know this form: ${left[0]}`);
  return `const ${name} = (() => {\n${body}\nreturn { ${[...passed, ...given.map(([a, b]) => (a === b ? a : `${b}: ${a}`))].join(', ')} };\n})();`;
}
