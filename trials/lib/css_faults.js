// Prints what is wrong in a style: what can't be parsed, and each declaration and condition that the syntaxes of css-tree don't
// allow (Debian's node-css-tree has those of MDN). A variable stands for the value that the style gives it first.
//
//     NODE_PATH=/usr/share/nodejs node trials/lib/css_faults.js FILE
"use strict";
const css = require("css-tree");
const text = require("fs").readFileSync(process.argv[2], "utf8");
const faults = [], values = new Map();
const style = css.parse(text, {positions: true, onParseError: fault => faults.push(fault.message)});

css.walk(style, node => {
  if (node.type === "Declaration" && node.property.startsWith("--") && !values.has(node.property))
    values.set(node.property, css.generate(node.value).trim());
});

function resolved(value) {
  const next = value.replace(/var\((--[\w-]+)\)/g, (whole, name) => values.get(name) ?? whole);
  return next === value ? value : resolved(next);
}

function told(node, what, fault) {
  if (fault) faults.push(`line ${node.loc.start.line}, ${what}: ${fault.message.split("\n")[0]}`);
}

css.walk(style, node => {
  if (node.type === "Declaration" && !node.property.startsWith("--")) {
    const value = resolved(css.generate(node.value));
    told(node, `${node.property}: ${value}`, css.lexer.matchProperty(node.property, css.parse(value, {context: "value"})).error);
  } else if (node.type === "Atrule") {
    told(node, `@${node.name}`, css.lexer.matchAtrulePrelude(node.name, node.prelude).error);
  }
});
for (const fault of faults) console.log(fault);
